//! Point records to compare with: their formats, and bytes that are the same in every run.

use crate::{
    call::noise,
    format::{self, ATTRIBUTES, IGNORED, LONGEST},
};
use las::{point::Format, raw::window};

/// The bytes of a waveform.
const WAVEFORM: usize = 29;

/// Counts of extra bytes that leave a record short enough for many.
pub const FEW: [u32; 4] = [0, 1, 2, 7];

/// A linear congruential generator: Knuth's, whose upper half is the better one.
pub struct Lcg(u64);

impl Lcg {
    /// The `i`-th run of numbers. Runs are not stretches of one another.
    pub fn new(i: u64) -> Lcg {
        Lcg(u64::from(noise(i)) << 32 | u64::from(noise(!i)))
    }

    pub fn word(&mut self) -> u32 {
        self.0 = self
            .0
            .wrapping_mul(6_364_136_223_846_793_005)
            .wrapping_add(1_442_695_040_888_963_407);
        (self.0 >> 32) as u32
    }

    pub fn long(&mut self) -> u64 {
        u64::from(self.word()) << 32 | u64::from(self.word())
    }

    /// A number below `end`.
    pub fn below(&mut self, end: u64) -> u64 {
        self.long() % end
    }

    pub fn byte(&mut self) -> u8 {
        (self.word() >> 24) as u8
    }

    /// Whether a throw with one chance in `n` hit.
    pub fn one_in(&mut self, n: u32) -> bool {
        self.word().is_multiple_of(n)
    }

    pub fn fill(&mut self, bytes: &mut [u8]) {
        for chunk in bytes.chunks_mut(4) {
            chunk.copy_from_slice(&self.word().to_le_bytes()[..chunk.len()]);
        }
    }

    /// The bits of an f32, two times in three of a kind that few bits without pattern are: NaNs of
    /// both sorts and signs, infinities, zeros and subnormals.
    pub fn f32_bits(&mut self) -> u32 {
        let bits = self.word();
        match self.word() % 6 {
            0 => bits | 0x7f80_0000,
            1 => bits & 0x803f_ffff | 0x7f80_0000,
            2 => bits & 0x807f_ffff,
            3 => [0, 0x8000_0000, 0x7f80_0000, 0xff80_0001][bits as usize % 4],
            _ => bits,
        }
    }

    /// The bits of an f64, in the same way.
    pub fn f64_bits(&mut self) -> u64 {
        let bits = self.long();
        match self.word() % 6 {
            0 => bits | 0x7ff << 52,
            1 => bits & !(1 << 51) | 0x7ff << 52,
            2 => bits & !(0x7ff << 52),
            3 => [0, 1 << 63, 0x7ff << 52, 0xfff << 52 | 1][bits as usize % 4],
            _ => bits,
        }
    }

    /// Three-byte flags, of which most but not all fit into two bytes.
    pub fn three_bytes(&mut self) -> [u8; 3] {
        let [a, b, c, _] = self.word().to_le_bytes();
        let mut fitting = |byte: u8, mask: u8| if self.one_in(8) { byte } else { byte & mask };
        [
            fitting(a, 0x7f) & fitting(0xff, 0xf7),
            fitting(b, 0xcf),
            fitting(c, 0x1f),
        ]
    }
}

/// The length of a record of a format word, as the Rust's own layout adds it up.
pub fn record_len(word: u32) -> usize {
    window::record_len(&format::format(word))
}

/// The most extra bytes that an attribute set has room for.
pub fn most_extra(attributes: u32) -> u32 {
    (LONGEST - record_len(attributes)) as u32
}

/// Every set of the five attributes, uncompressed and compressed, with each of the counts of extra
/// bytes that `counts` gives for it.
pub fn formats<I: IntoIterator<Item = u32>>(counts: impl Fn(u32) -> I) -> Vec<u32> {
    let with = |set| counts(set).into_iter().map(move |n| set | n << 16);
    (0..=ATTRIBUTES).flat_map(with).collect()
}

/// The eleven formats that have a code, with few extra bytes.
pub fn coded() -> Vec<u32> {
    let codes = (0..=10).map(|code| match Format::new(code) {
        Ok(format) => format::word(format),
        Err(error) => panic!("the Rust has no format {code}: {error}"),
    });
    codes.flat_map(|word| FEW.map(|n| word | n << 16)).collect()
}

/// Formats whose record is longer than a length field can state, all that there are.
pub fn overlong() -> Vec<u32> {
    formats(|set| most_extra(set) + 1..=65_535)
}

/// Every format with each length from `0` to one past the length of its record.
pub fn cut(formats: Vec<u32>) -> Vec<(u32, usize)> {
    let lengths = |word| (0..=record_len(word) + 1).map(move |len| (word, len));
    formats.into_iter().flat_map(lengths).collect()
}

/// A word with bits that mean nothing: none in even runs.
pub fn with_ignored(word: u32, i: u64) -> u32 {
    if i & 1 == 0 {
        word
    } else {
        word | noise(i) & IGNORED
    }
}

/// Fills `bytes` with a record and whatever lies past it. Where the format has them and `bytes`
/// reaches so far, floats are of every kind, near infrared is 0 now and then, and most three-byte
/// flags fit into two bytes.
pub fn fill(word: u32, i: u64, bytes: &mut [u8]) {
    let mut lcg = Lcg::new(i);
    lcg.fill(bytes);
    let format = format::format(word);
    let end = record_len(word);
    if bytes.len() < end {
        return;
    }
    if format.is_extended {
        bytes[14..17].copy_from_slice(&lcg.three_bytes());
    }
    if format.has_gps_time {
        let at = if format.is_extended { 22 } else { 20 };
        bytes[at..at + 8].copy_from_slice(&lcg.f64_bits().to_le_bytes());
    }
    let mut at = end - usize::from(format.extra_bytes);
    if format.has_waveform {
        for float in bytes[at - 16..at].chunks_exact_mut(4) {
            float.copy_from_slice(&lcg.f32_bits().to_le_bytes());
        }
        at -= WAVEFORM;
    }
    if format.has_nir && lcg.one_in(3) {
        bytes[at - 2..at].fill(0);
    }
}
