//! What the lists share that programs in C repeat with no Rust at hand: the file that a question makes of a few
//! numbers, bytes without pattern, a sum over bytes, and the list of questions and answers itself.

use crate::{
    file_model::{POINT_BYTES, standard_size},
    replay,
    report::Tally,
};
use std::{io, path::Path};

/// Bytes without pattern.
pub(crate) struct Stream(pub u64);

impl Stream {
    fn byte(&mut self) -> u8 {
        self.0 = self
            .0
            .wrapping_mul(6_364_136_223_846_793_005)
            .wrapping_add(1_442_695_040_888_963_407);
        (self.0 >> 56) as u8
    }

    pub fn bytes(&mut self, count: u64) -> Vec<u8> {
        (0..count).map(|_| self.byte()).collect()
    }
}

/// A sum over bytes, FNV-1a of 64 bits.
pub(crate) fn summed(sum: u64, bytes: &[u8]) -> u64 {
    bytes.iter().fold(sum, |sum, &byte| {
        (sum ^ u64::from(byte)).wrapping_mul(0x100_0000_01b3)
    })
}

pub(crate) const NOTHING: u64 = 0xcbf2_9ce4_8422_2325;

/// Puts the bytes of a number at a place of a file; what would stand past its end is left out.
pub(crate) fn put(file: &mut [u8], at: u64, width: u64, value: u64) {
    for k in 0..width {
        if let Some(byte) = file.get_mut((at + k) as usize) {
            *byte = (value >> (8 * k)) as u8;
        }
    }
}

/// How a file is made.
#[derive(Clone, Copy)]
pub(crate) struct Frame {
    pub minor: u64,
    pub header_size: u64,
    /// VLRs without data.
    pub vlrs: u64,
    pub offset: u64,
    pub format: u64,
    pub length: u64,
    /// The legacy count, and the large one, where there is one.
    pub legacy: u64,
    pub large: u64,
    /// Where waveform packets without data start, in 1.3, or 0.
    pub waveform: u64,
    /// Where EVLRs without data start, and how many there are, in 1.4.
    pub evlr_start: u64,
    pub evlrs: u64,
    /// The bytes of the file, and the allowance that is asked with.
    pub size: u64,
    pub allowance: u64,
}

impl Frame {
    /// A file that ends so many bytes after its points, with every allowance.
    pub fn new(
        (minor, format): (u64, u64),
        (header_size, vlrs): (u64, u64),
        (offset, length): (u64, u64),
        [legacy, large]: [u64; 2],
        after: u64,
    ) -> Frame {
        let frame = Frame {
            minor,
            header_size,
            vlrs,
            offset,
            format,
            length,
            legacy,
            large,
            waveform: 0,
            evlr_start: 0,
            evlrs: 0,
            size: 0,
            allowance: u64::MAX,
        };
        let size = frame.end() + after;
        Frame { size, ..frame }
    }

    /// The points that are made.
    pub fn count(&self) -> u64 {
        match (self.legacy, self.minor) {
            (0, 4) => self.large,
            (legacy, _) => legacy,
        }
    }

    pub fn end(&self) -> u64 {
        self.offset + self.count() * self.length
    }

    /// The numbers of which the file is made, but its size, as they stand in a line.
    pub fn numbers(&self) -> [u64; 11] {
        [
            self.minor,
            self.header_size,
            self.vlrs,
            self.offset,
            self.format,
            self.length,
            self.legacy,
            self.large,
            self.waveform,
            self.evlr_start,
            self.evlrs,
        ]
    }

    /// Bytes without pattern, with what the header of every version has.
    pub fn header(&self, seed: u64) -> Vec<u8> {
        let mut file = Stream(seed).bytes(self.size);
        let mut put = |at, width, value| put(&mut file, at, width, value);
        put(0, 4, u32::from_le_bytes(*b"LASF").into());
        put(24, 1, 1);
        put(25, 1, self.minor);
        put(94, 2, self.header_size);
        put(96, 4, self.offset);
        put(100, 4, self.vlrs);
        put(104, 1, self.format);
        put(105, 2, self.length);
        put(107, 4, self.legacy);
        file
    }

    /// The lengths of the VLRs.
    pub fn put_vlrs(&self, file: &mut [u8]) {
        for k in 0..self.vlrs {
            put(file, self.header_size + 54 * k + 20, 2, 0);
        }
    }

    /// The file.
    pub fn make(&self, seed: u64) -> Vec<u8> {
        let mut file = self.header(seed);
        if self.minor == 3 {
            put(&mut file, 6, 2, if self.waveform > 0 { 2 } else { 0 });
            put(&mut file, 227, 8, self.waveform);
        }
        if self.minor == 4 {
            put(&mut file, 235, 8, self.evlr_start);
            put(&mut file, 243, 4, self.evlrs);
            put(&mut file, 247, 8, self.large);
        }
        self.put_vlrs(&mut file);
        if self.waveform > 0 && self.minor == 3 {
            put(&mut file, self.waveform + 20, 8, 0);
        }
        if self.evlr_start > 0 {
            for k in 0..self.evlrs.min(9) {
                put(&mut file, self.evlr_start + 60 * k + 20, 8, 0);
            }
        }
        file
    }

    /// The same with what the file check refuses, on both sides of some edges.
    pub fn refused(self) -> Vec<Frame> {
        let sizes = [0, 226, self.offset - 1, self.end() - 1];
        let mut refused = sizes.map(|size| Frame { size, ..self }).to_vec();
        refused.push(Frame { minor: 5, ..self });
        let standard = standard_size(self.minor.into()) as u64;
        refused.push(Frame {
            header_size: standard - 1,
            ..self
        });
        refused.extend([11, 128].map(|format| Frame { format, ..self }));
        let bare = POINT_BYTES[self.format as usize] as u64;
        refused.push(Frame {
            length: bare - 1,
            ..self
        });
        refused.push(Frame {
            vlrs: self.vlrs + 1,
            allowance: self.vlrs,
            ..self
        });
        refused.push(Frame { vlrs: 90, ..self });
        let starts = [self.end() - 1, self.end(), self.size, self.size + 1];
        match self.minor {
            3 => refused.extend(starts.map(|waveform| Frame { waveform, ..self })),
            4 => refused.extend(starts.map(|evlr_start| Frame {
                evlr_start,
                evlrs: 1,
                ..self
            })),
            minor => refused.push(Frame {
                format: if minor == 2 { 4 } else { 2 },
                ..self
            }),
        }
        refused
    }
}

/// A line of questions, and the line of answers to it.
pub(crate) trait Question: Copy {
    /// The place in a line of answers of the number that tells what became of the question.
    const NUMBER: usize = 0;

    /// The same with other bytes without pattern.
    fn seeded(self, seed: u64) -> Self;
    fn numbers(&self) -> Vec<u64>;
    fn answer(&self) -> String;
}

#[derive(Default)]
pub(crate) struct List {
    questions: String,
    answers: String,
    asked: u64,
    numbers: Vec<u64>,
}

impl List {
    pub fn ask<Q: Question>(&mut self, question: Q) {
        let question = question.seeded(self.asked);
        self.asked += 1;
        let numbers: Vec<String> = question.numbers().iter().map(u64::to_string).collect();
        self.questions += &(numbers.join(" ") + "\n");
        let answer = question.answer();
        let number = answer.split(' ').nth(Q::NUMBER).expect("a row");
        self.numbers.push(number.parse().expect("a number"));
        self.answers += &answer;
    }

    /// Writes the list into its folder or compares it with what the folder has. Each of these numbers is answered.
    pub fn keep(
        self,
        what: &str,
        numbers: &[u64],
        tally: &mut Tally,
        folder: &Path,
        write: bool,
    ) -> io::Result<()> {
        for number in numbers {
            assert!(self.numbers.contains(number), "refusal {number}");
        }
        println!("replay list of {what}: {}", self.asked);
        replay::keep(
            tally,
            folder,
            write,
            self.questions.into_bytes(),
            self.answers,
        )
    }
}
