//! VLRs and EVLRs: heads, data, every cut, and lengths up to 2^64 - 1.

use crate::{
    answer::Answer,
    call::Call,
    capi::{self, VlrHead},
    records::Lcg,
    report::{self, Report, Tally, stretches},
};
use las::raw::{Vlr, vlr::RecordLength};

/// How many records are read and written.
const RECORDS: u64 = 2_000_000;

/// What lent memory holds before a call, so that what is written where nothing may be shows.
const FILL: u8 = 0xA5;
const BEFORE: VlrHead = VlrHead {
    numbers: [u64::MAX; 3],
    user_id: [FILL; 16],
    description: [FILL; 32],
};

/// A record's bytes, made whole and then perhaps cut or given a length that it has not.
pub(crate) struct Case {
    pub bytes: Vec<u8>,
    pub extended: bool,
}

impl Case {
    fn new(i: u64) -> Case {
        let mut random = Lcg::new(i);
        let extended = i % 2 == 1;
        let head = head(extended);
        let data = random.below(48) as usize;
        let mut bytes: Vec<u8> = (0..head + data).map(|_| random.byte()).collect();
        let stated = match random.below(16) {
            // lengths whose sum with the head is at the ends of 2^64, and others that no slice has
            0 if extended => u64::MAX - random.below(62),
            1 if extended => (u64::MAX >> random.below(64)).max(1 << 20),
            2 => data as u64 + random.below(3),
            _ => data as u64,
        };
        if extended {
            bytes[20..28].copy_from_slice(&stated.to_le_bytes());
        } else {
            bytes[20..22].copy_from_slice(&(stated as u16).to_le_bytes());
        }
        match random.below(4) {
            0 => bytes.truncate(random.below(bytes.len() as u64 + 1) as usize),
            1 => bytes.push(random.byte()),
            _ => {}
        }
        Case { bytes, extended }
    }

    /// The length that the head states, if the head is there.
    pub fn stated(&self) -> Option<u64> {
        (self.bytes.len() >= head(self.extended)).then(|| {
            if self.extended {
                u64::from_le_bytes(self.bytes[20..28].try_into().expect("eight bytes"))
            } else {
                u64::from(u16::from_le_bytes([self.bytes[20], self.bytes[21]]))
            }
        })
    }

    /// Whether the Rust can be asked: it panics at a length that no memory holds.
    fn askable(&self) -> bool {
        self.stated().is_none_or(|stated| stated <= 1 << 16)
    }

    /// The bytes that the record wants in all, by document 01: 0 if over 2^64 - 1.
    pub fn wanted(&self) -> u64 {
        let head = head(self.extended) as u64;
        self.stated()
            .map_or(head, |stated| head.checked_add(stated).unwrap_or(0))
    }
}

pub(crate) fn head(extended: bool) -> usize {
    if extended { 60 } else { 54 }
}

/// The stated length, whichever kind it is.
pub(crate) fn length(vlr: &Vlr) -> u64 {
    u64::from(vlr.record_length_after_header)
}

/// Reads with the Rust, where it can be asked.
fn read(case: &Case) -> Option<Vlr> {
    case.askable()
        .then(|| Vlr::read_from(&case.bytes[..], case.extended).ok())
        .flatten()
}

/// The Rust's head as the port gives it.
pub(crate) fn head_of(vlr: &Vlr) -> VlrHead {
    VlrHead {
        numbers: [
            u64::from(vlr.reserved),
            u64::from(vlr.record_id),
            length(vlr),
        ],
        user_id: vlr.user_id,
        description: vlr.description,
    }
}

/// The calls that look at a record.
type Outcome = report::Outcome<3, 0>;

const CALLS: [&str; 3] = [
    "las_vlr_read, las_vlr_data",
    "las_vlr_measure",
    "las_vlr_stated",
];

/// Compares a read: the head, the data's place and, on refusal, that nothing was written; then what
/// is told of the record without reading it.
fn compare_read(outcome: &mut Outcome, i: u64) {
    let case = Case::new(i);
    let mut found = BEFORE;
    let port = capi::row(|row| capi::las_vlr_read(&case.bytes, case.extended, row, &mut found));
    let [start, count] = capi::span(|part| capi::las_vlr_data(&case.bytes, case.extended, part));
    let rust = read(&case);
    let answer = match &rust {
        Some(_) => Answer::result(case.wanted()),
        None => Answer::refusal(1, case.wanted()),
    };
    let agrees = port == answer
        && match &rust {
            Some(vlr) => {
                let data = start as usize..(start + count) as usize;
                found == head_of(vlr) && case.bytes.get(data) == Some(&vlr.data[..])
            }
            None => found == BEFORE && [start, count] == [0, 0],
        };
    let [reading, measuring, stating] = &mut outcome.reports;
    reading.check(agrees, || format!("record {i}: port {port}"));
    reading.by_rule(!case.askable());

    let port = capi::row(|row| capi::las_vlr_measure(&case.bytes, case.extended, row));
    measuring.compare(answer, port, || format!("record {i}"));
    measuring.by_rule(!case.askable());

    // Of a record that is not all there the Rust tells nothing; of a head that is, the port does.
    let stated = match (&rust, case.stated()) {
        (Some(vlr), _) => Answer::result(length(vlr)),
        (None, Some(stated)) => Answer::result(stated),
        (None, None) => Answer::refusal(1, head(case.extended) as u64),
    };
    let port = capi::row(|row| capi::las_vlr_stated(&case.bytes, case.extended, row));
    stating.compare(stated, port, || format!("record {i}"));
    stating.by_rule(rust.is_none());
}

static HEAD_SIZE: Call = Call {
    name: "las_vlr_head_size",
    op: None,
    rust: |x, _| Answer::result(las::Vlr::default().len(x == 1) as u64),
    port: |x, _| Answer::result(capi::las_vlr_head_size(x == 1)),
};

fn compare_default() -> Report {
    let mut report = Report::new("las_vlr_default");
    let rust = head_of(&Vlr::default());
    let mut port = BEFORE;
    capi::las_vlr_default(&mut port);
    report.check(rust == port, || format!("Rust {rust:?}, port {port:?}"));
    report
}

/// Compares a write of what was read, or of another length of data than stated, into enough room
/// or too little.
fn compare_write(report: &mut Report, i: u64) {
    let mut random = Lcg::new(!i);
    let case = Case::new(i);
    let Some(mut vlr) = read(&case) else {
        return;
    };
    if random.below(8) == 0 {
        vlr.data.push(random.byte());
    }
    let mut bytes = Vec::new();
    vlr.write_to(&mut bytes).expect("a Vec takes every byte");
    let short = if random.below(4) == 0 {
        random.below(bytes.len() as u64 + 1) as usize
    } else {
        0
    };
    let mut dst = vec![FILL; bytes.len() - short + 3 * usize::from(short == 0)];
    let untouched = dst.clone();
    let stated = length(&vlr);
    let extended = matches!(vlr.record_length_after_header, RecordLength::Evlr(_));
    let port = capi::row(|row| {
        capi::las_vlr_write(extended, &head_of(&vlr), &vlr.data, &mut dst, row);
    });
    let agrees = if vlr.data.len() as u64 != stated {
        port == Answer::refusal(24, stated) && dst == untouched
    } else if dst.len() < bytes.len() {
        // the Rust too fails in so little room
        let failed = vlr.write_to(&mut untouched.clone()[..]).is_err();
        failed && port == Answer::refusal(22, bytes.len() as u64) && dst == untouched
    } else {
        port == Answer::result(bytes.len() as u64)
            && dst[..bytes.len()] == bytes[..]
            && dst[bytes.len()..] == untouched[bytes.len()..]
    };
    report.check(agrees, || format!("record {i}: port {port}"));
    report.by_rule(vlr.data.len() as u64 != stated);
}

pub fn compare(tally: &mut Tally) {
    let outcomes = stretches(RECORDS, |stretch| {
        let mut outcome = Outcome::new(CALLS);
        stretch.for_each(|i| compare_read(&mut outcome, i));
        outcome
    });
    let read = outcomes.into_iter().fold(Outcome::new(CALLS), Outcome::and);
    for report in read.reports {
        tally.add(report);
    }
    tally.add(HEAD_SIZE.over(2, |i| (i as u32, 0)));
    tally.add(compare_default());
    tally.add(Report::over("las_vlr_write", RECORDS, |report, part| {
        part.for_each(|i| compare_write(report, i));
    }));
}
