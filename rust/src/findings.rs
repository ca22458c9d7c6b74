//! What is wrong with a file that is accepted all the same.

use crate::{
    file::{File, Part, PartKind, Parts},
    flags::Flags,
    refusal::Kind,
    sys,
};
use std::{fmt, iter::FusedIterator, vec};

/// A rule that a file can break and be accepted all the same. A later version may know more of them.
///
/// Shown, it says how it is broken: `Rule::ReturnNumber` is "a return number is 0 or above the number of returns".
#[derive(Clone, Copy, Debug, PartialEq, Eq, PartialOrd, Ord, Hash)]
#[non_exhaustive]
pub enum Rule {
    /// 1: in point formats 6 to 10 the six legacy counters, of points and of returns 1 to 5, are 0.
    LegacyNotZero,
    /// 2: in LAS 1.4 the legacy count of points is 0 or the large one.
    LegacyUnlike,
    /// 3: a count by return is the number of points of that return: in LAS 1.4 each of the 15 large ones, in LAS 1.0 to 1.3 each of the
    /// five.
    ReturnsUnlike,
    /// 4: a point's return number is from 1 to its number of returns.
    ReturnNumber,
    /// 5: what stands in a text field after its first zero is zeros.
    Text,
}

impl Rule {
    /// Every rule, in the library's order, in which findings of the same byte are told.
    pub const ALL: [Rule; 5] = [
        Rule::LegacyNotZero,
        Rule::LegacyUnlike,
        Rule::ReturnsUnlike,
        Rule::ReturnNumber,
        Rule::Text,
    ];

    /// The rule with this number.
    fn from_number(number: u64) -> Option<Rule> {
        Rule::ALL.into_iter().find(|rule| rule.number() == number)
    }

    /// The number in the library's list, 1 to 5.
    pub fn number(self) -> u64 {
        match self {
            Rule::LegacyNotZero => 1,
            Rule::LegacyUnlike => 2,
            Rule::ReturnsUnlike => 3,
            Rule::ReturnNumber => 4,
            Rule::Text => 5,
        }
    }

    /// A name in a few words.
    pub fn name(self) -> &'static str {
        match self {
            Rule::LegacyNotZero => "legacy not zero",
            Rule::LegacyUnlike => "legacy unlike",
            Rule::ReturnsUnlike => "returns unlike",
            Rule::ReturnNumber => "return number",
            Rule::Text => "text",
        }
    }

    /// What the standard wants.
    fn wants(self) -> &'static str {
        match self {
            Rule::LegacyNotZero => "0 there in point formats 6 to 10",
            Rule::LegacyUnlike => "the same number there, or 0",
            Rule::ReturnsUnlike => "the number of points of that return",
            Rule::ReturnNumber => "returns counted from 1 to the number of returns",
            Rule::Text => "zeros from there to the end of the field",
        }
    }
}

impl fmt::Display for Rule {
    fn fmt(&self, f: &mut fmt::Formatter<'_>) -> fmt::Result {
        f.pad(match self {
            Rule::LegacyNotZero => "a legacy counter is not 0 in point formats 6 to 10",
            Rule::LegacyUnlike => "the legacy count of points is neither 0 nor the large one",
            Rule::ReturnsUnlike => "a count by return is not the number of points of that return",
            Rule::ReturnNumber => "a return number is 0 or above the number of returns",
            Rule::Text => "a text field has more than zeros after its first zero",
        })
    }
}

/// A counter, a text field or a point that breaks a rule; from [`File::findings`].
///
/// Shown, it is a sentence that says where, what is wrong, and what the standard wants:
///
/// ```
/// # let bytes = std::fs::read("../samples/contractor.las")?;
/// let file = inscjarol::File::check(&bytes)?;
/// let last = file.findings().last().map(|finding| finding.to_string());
/// assert_eq!(
///     last.as_deref(),
///     Some(
///         "byte 574, part 4 (points), point 5: the return number is 2, and the number of returns is 1; \
///          the standard wants returns counted from 1 to the number of returns"
///     )
/// );
/// # Ok::<(), Box<dyn std::error::Error>>(())
/// ```
#[derive(Clone, Copy, Debug, PartialEq, Eq, Hash)]
#[non_exhaustive]
pub struct Finding {
    /// The rule that is broken.
    pub rule: Rule,
    /// The part in which it is, counted from 1 as [`File::parts`] has them, gaps too; the header is part 1.
    pub part: u64,
    /// What this part is.
    pub kind: PartKind,
    /// The point, counted from 1; 0 where it is none.
    pub point: u64,
    /// The first byte of the counter, the field or the point's record, counted from 0.
    pub byte: u64,
    what: What,
}

/// What stands there.
#[derive(Clone, Copy, Debug, PartialEq, Eq, Hash)]
enum What {
    /// A counter: which return it counts, 0 where it is all of them, what it states, and what it is held to.
    Counter { of: u64, stated: u64, held_to: u64 },
    /// A return number, and the number of returns.
    Return { number: u8, of: u8 },
    /// A text field: what it is called, its first zero, and the first byte after that which is another.
    Text {
        name: &'static str,
        zero: u64,
        rest: u64,
    },
}

impl fmt::Display for Finding {
    fn fmt(&self, f: &mut fmt::Formatter<'_>) -> fmt::Result {
        write!(f, "byte {}, part {} ({})", self.byte, self.part, self.kind)?;
        if self.point > 0 {
            write!(f, ", point {}", self.point)?;
        }
        f.write_str(": ")?;
        match self.what {
            What::Counter {
                of,
                stated,
                held_to,
            } => {
                // Before LAS 1.4 there are no others, and in it the third rule is of the large ones.
                let counter = match self.rule {
                    Rule::ReturnsUnlike => "count",
                    _ => "legacy count",
                };
                match of {
                    0 => write!(f, "the {counter} of points is {stated}")?,
                    of => write!(f, "the {counter} of return {of} is {stated}")?,
                }
                match (self.rule, held_to) {
                    (Rule::LegacyUnlike, _) => {
                        write!(f, ", and the large one, at byte {LARGE}, is {held_to}")?;
                    }
                    (Rule::ReturnsUnlike, 1) => f.write_str(", and 1 point is of that return")?,
                    (Rule::ReturnsUnlike, _) => {
                        write!(f, ", and {held_to} points are of that return")?;
                    }
                    _ => {}
                }
            }
            What::Return { number, of } => {
                write!(
                    f,
                    "the return number is {number}, and the number of returns is {of}"
                )?;
            }
            What::Text { name, zero, rest } => {
                write!(
                    f,
                    "the {name} ends with a zero at byte {zero}, and byte {rest} after it is not zero"
                )?;
            }
        }
        write!(f, "; the standard wants {}", self.rule.wants())
    }
}

/// Where the counters begin: the legacy count of points, of four bytes, and those by return behind it; and the large ones, of eight.
const LEGACY: u64 = 107;
const LARGE: u64 = 247;

/// Where the return number stands in a point record of any format.
const RETURNS: u64 = 14;

/// The findings of a file in their order; from [`File::findings`]. They are numbers until each one's turn comes.
#[derive(Clone, Debug)]
pub struct Findings<'a> {
    file: File<'a>,
    rows: vec::IntoIter<u64>,
    parts: Parts<'a>,
    /// The part that was reached last, and its number.
    reached: (u64, Option<Part>),
    /// The points by return number, once they are asked for.
    by_return: Option<[u64; 16]>,
}

impl Findings<'_> {
    /// The bytes of memory that a finding takes until its turn comes.
    pub const BYTES: u64 = 32;
}

/// Findings.
impl<'a> File<'a> {
    /// What is wrong with the file, though it is accepted: every counter, text field and point that breaks a [`Rule`], each once and no
    /// other, in file order, those of the same byte in the order of the rules.
    ///
    /// This looks at all points, once where nothing is wrong, else up to three times, to count findings and then to tell them. Memory is
    /// taken for the findings, [`Findings::BYTES`] each, and for nothing else.
    ///
    /// ```
    /// # let bytes = std::fs::read("../samples/contractor.las")?;
    /// use inscjarol::{File, Rule};
    ///
    /// let file = File::check(&bytes)?;
    /// for finding in file.findings() {
    ///     println!("{finding}");
    /// }
    /// let rules: Vec<Rule> = file.findings().map(|finding| finding.rule).collect();
    /// assert_eq!(
    ///     rules,
    ///     [Rule::LegacyNotZero, Rule::LegacyUnlike, Rule::ReturnsUnlike, Rule::Text, Rule::ReturnNumber]
    /// );
    /// # Ok::<(), Box<dyn std::error::Error>>(())
    /// ```
    pub fn findings(&self) -> Findings<'a> {
        self.findings_of(self.finding_count())
    }

    /// The findings where there are at most so many; else how many there are, and no memory is taken: of a file whose points are all
    /// wrong the findings may be more than the file has bytes.
    ///
    /// ```
    /// # let bytes = std::fs::read("../samples/contractor.las")?;
    /// let file = inscjarol::File::check(&bytes)?;
    /// assert_eq!(file.findings_within(4).err(), Some(5));
    /// assert_eq!(file.findings_within(5).map(|findings| findings.len()), Ok(5));
    /// # Ok::<(), Box<dyn std::error::Error>>(())
    /// ```
    pub fn findings_within(&self, most: u64) -> Result<Findings<'a>, u64> {
        match self.finding_count() {
            count if count > most => Err(count),
            count => Ok(self.findings_of(count)),
        }
    }

    /// The findings, of which there are so many.
    fn findings_of(&self, count: u64) -> Findings<'a> {
        let mut rows = vec![0; sys::in_memory(count).saturating_mul(4)];
        if count > 0 {
            // There is room for them, and an accepted file is refused for nothing else.
            let _ = sys::findings(self.bytes(), self.allowance, &mut rows);
        }
        Findings {
            file: *self,
            rows: rows.into_iter(),
            parts: self.parts(),
            reached: (0, None),
            by_return: None,
        }
    }

    /// How many findings there are, 0 where nothing is wrong. This looks at all points, and takes no memory.
    ///
    /// ```
    /// # let bytes = std::fs::read("../samples/stockpile.las")?;
    /// assert_eq!(inscjarol::File::check(&bytes)?.finding_count(), 0);
    /// # Ok::<(), Box<dyn std::error::Error>>(())
    /// ```
    pub fn finding_count(&self) -> u64 {
        match sys::findings(self.bytes(), self.allowance, &mut []) {
            Err(refusal) if refusal.kind() == Kind::NoRoom => refusal.value(),
            found => found.unwrap_or(0),
        }
    }
}

impl Findings<'_> {
    /// The part with this number, which is none before the one that was reached last.
    fn part(&mut self, number: u64) -> Option<Part> {
        while self.reached.0 < number {
            self.reached = (self.reached.0.saturating_add(1), self.parts.next());
        }
        self.reached.1
    }

    /// What stands at a finding.
    fn what(&mut self, rule: Rule, part: Part, byte: u64) -> What {
        match rule {
            Rule::LegacyNotZero | Rule::LegacyUnlike | Rule::ReturnsUnlike => {
                let (of, stated) = self.counter(byte);
                let held_to = match rule {
                    Rule::LegacyUnlike => self.number(LARGE, 8),
                    Rule::ReturnsUnlike => self.points_of(of),
                    _ => 0,
                };
                What::Counter {
                    of,
                    stated,
                    held_to,
                }
            }
            Rule::ReturnNumber => {
                let flags = self.flags(self.number(byte.saturating_add(RETURNS), 1) as u8);
                What::Return {
                    number: flags.return_number(),
                    of: flags.number_of_returns(),
                }
            }
            Rule::Text => self.text(part, byte),
        }
    }

    /// Which return the counter at this byte counts, 0 where it is all of them, and what it states.
    fn counter(&self, byte: u64) -> (u64, u64) {
        match byte < LARGE {
            true => (byte.saturating_sub(LEGACY) / 4, self.number(byte, 4)),
            false => (byte.saturating_sub(LARGE) / 8, self.number(byte, 8)),
        }
    }

    /// The text field at this byte.
    fn text(&self, part: Part, byte: u64) -> What {
        let (name, width) = match (part.kind, byte.saturating_sub(part.start)) {
            (PartKind::Header, 26) => ("system identifier", 32),
            (PartKind::Header, _) => ("generating software", 32),
            (_, 2) => ("user id", 16),
            _ => ("description", 32),
        };
        let field = sys::part_of(self.file.bytes(), byte, width);
        let zero = field.iter().position(|&found| found == 0).unwrap_or(0);
        let after = field.iter().skip(zero).position(|&found| found != 0);
        let zero = byte.saturating_add(zero as u64);
        What::Text {
            name,
            zero,
            rest: zero.saturating_add(after.unwrap_or(0) as u64),
        }
    }

    /// The number of up to eight bytes at this byte.
    fn number(&self, byte: u64, len: u64) -> u64 {
        let field = sys::part_of(self.file.bytes(), byte, len);
        let number = field.iter().rev();
        number.fold(0, |number, &next| number << 8 | u64::from(next))
    }

    /// The flags of a record whose first byte of them this is.
    fn flags(&self, byte: u8) -> Flags {
        match self.file.format().is_extended {
            true => Flags::ThreeByte(byte, 0, 0),
            false => Flags::TwoByte(byte, 0),
        }
    }

    /// How many points have this return number.
    fn points_of(&mut self, number: u64) -> u64 {
        let by_return = match self.by_return {
            Some(by_return) => by_return,
            None => self.counted(),
        };
        self.by_return = Some(by_return);
        by_return.get(sys::in_memory(number)).copied().unwrap_or(0)
    }

    /// The points by return number: counted by the byte that holds it, so that the library is asked of each byte once.
    fn counted(&self) -> [u64; 16] {
        let mut by_byte = [0_u64; 256];
        let length = usize::from(self.file.header().point_data_record_length).max(1);
        for record in self.file.run().records.chunks_exact(length) {
            let byte = record.get(RETURNS as usize).copied().unwrap_or(0);
            if let Some(count) = by_byte.get_mut(usize::from(byte)) {
                *count = count.saturating_add(1);
            }
        }
        let mut by_return = [0_u64; 16];
        for (byte, count) in (0..=u8::MAX).zip(by_byte) {
            let number = self.flags(byte).return_number();
            if let Some(all) = by_return.get_mut(usize::from(number)) {
                *all = all.saturating_add(count);
            }
        }
        by_return
    }
}

impl Iterator for Findings<'_> {
    type Item = Finding;

    fn next(&mut self) -> Option<Finding> {
        let rule = Rule::from_number(self.rows.next()?)?;
        let (number, point, byte) = (self.rows.next()?, self.rows.next()?, self.rows.next()?);
        let part = self.part(number)?;
        Some(Finding {
            rule,
            part: number,
            kind: part.kind,
            point,
            byte,
            what: self.what(rule, part, byte),
        })
    }

    fn size_hint(&self) -> (usize, Option<usize>) {
        let left = self.rows.len() / 4;
        (left, Some(left))
    }
}

impl ExactSizeIterator for Findings<'_> {}

impl FusedIterator for Findings<'_> {}

#[cfg(test)]
mod tests {
    use super::*;

    #[test]
    fn rules_are_told_apart() {
        let numbers = Rule::ALL.map(Rule::number);
        assert_eq!(numbers, [1, 2, 3, 4, 5]);
        assert_eq!(
            numbers.map(|number| Rule::from_number(number).unwrap()),
            Rule::ALL
        );
        assert_eq!((Rule::from_number(0), Rule::from_number(6)), (None, None));
        let mut words: Vec<String> = Vec::new();
        for rule in Rule::ALL {
            words.extend([rule.name().into(), rule.wants().into(), rule.to_string()]);
        }
        words.sort();
        words.dedup();
        assert_eq!(words.len(), 15);
        let mut ordered = Rule::ALL;
        ordered.sort();
        assert_eq!(ordered, Rule::ALL);
    }
}
