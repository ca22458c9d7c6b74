//! Counting what was compared and keeping the first differences, in the same way for every call.

use std::{collections::BTreeSet, fmt::Display, ops::Range, panic, thread};

/// How many differing inputs are shown for a call. The rest are only counted.
const SHOWN: usize = 5;

/// What comparing one call, or one list, came to.
pub struct Report {
    name: &'static str,
    inputs: u64,
    by_rule: u64,
    differences: u64,
    shown: Vec<String>,
}

impl Report {
    pub fn new(name: &'static str) -> Report {
        Report {
            name,
            inputs: 0,
            by_rule: 0,
            differences: 0,
            shown: Vec::new(),
        }
    }

    /// Compares both answers to one input. The input is put into words only where they differ.
    pub fn compare<T: PartialEq + Display>(
        &mut self,
        rust: T,
        port: T,
        input: impl FnOnce() -> String,
    ) {
        self.check(rust == port, || {
            format!("{}: Rust {rust}, port {port}", input())
        });
    }

    /// Counts one input, and tells of it unless all is as it should be.
    pub fn check(&mut self, as_it_should_be: bool, tell: impl FnOnce() -> String) {
        self.inputs += 1;
        if !as_it_should_be {
            self.differences += 1;
            if self.shown.len() < SHOWN {
                self.shown.push(tell());
            }
        }
    }

    /// Says whether the Rust was not asked about the input just counted, or not for all of it: the
    /// port was held to document 01's or 02's rule there, as this harness states it.
    pub fn by_rule(&mut self, rule: bool) {
        self.by_rule += u64::from(rule);
    }

    /// Adds what another report on the same call came to.
    pub fn and(mut self, other: Report) -> Report {
        self.add(other);
        self
    }

    fn add(&mut self, other: Report) {
        self.inputs += other.inputs;
        self.by_rule += other.by_rule;
        self.differences += other.differences;
        self.shown.extend(other.shown);
        self.shown.truncate(SHOWN);
    }

    /// Whether nothing differed so far.
    pub fn agrees(&self) -> bool {
        self.differences == 0
    }

    fn print(&self) {
        println!(
            "{:34}{:>14} inputs {:>9} by rule {:>9} differences",
            self.name, self.inputs, self.by_rule, self.differences
        );
        for line in &self.shown {
            println!("    {line}");
        }
    }

    /// Runs `part` over the numbers below `size` and adds its reports up in their order, so that what
    /// is shown does not depend on the threads.
    pub fn over(
        name: &'static str,
        size: u64,
        part: impl Fn(&mut Report, Range<u64>) + Sync,
    ) -> Report {
        let reports = stretches(size, |stretch| {
            let mut report = Report::new(name);
            part(&mut report, stretch);
            report
        });
        reports.into_iter().fold(Report::new(name), Report::and)
    }
}

/// What `part` comes to over the numbers below `size`, cut into one stretch for each processor.
pub fn stretches<T: Send>(size: u64, part: impl Fn(Range<u64>) -> T + Sync) -> Vec<T> {
    let threads = thread::available_parallelism().map_or(1, |n| n.get() as u64);
    let part = &part;
    thread::scope(|scope| {
        let stretches: Vec<_> = (0..threads)
            .map(|k| size * k / threads..size * (k + 1) / threads)
            .map(|stretch| scope.spawn(move || part(stretch)))
            .collect();
        stretches
            .into_iter()
            .map(|thread| thread.join().unwrap_or_else(|e| panic::resume_unwind(e)))
            .collect()
    })
}

/// The numbers of documents 01 and 02, from 0 to 50.
const NUMBERS: usize = 51;

/// What comparing several calls on the same inputs came to: a report for each, and what was counted.
pub struct Outcome<const CALLS: usize, const COUNTS: usize> {
    pub reports: [Report; CALLS],
    pub counted: Counted<COUNTS>,
}

impl<const CALLS: usize, const COUNTS: usize> Outcome<CALLS, COUNTS> {
    pub fn new(calls: [&'static str; CALLS]) -> Self {
        Outcome {
            reports: calls.map(Report::new),
            counted: Counted {
                counts: [0; COUNTS],
                answered: [0; NUMBERS],
            },
        }
    }

    /// Adds what the same calls came to on other inputs.
    pub fn and(mut self, other: Self) -> Self {
        for (report, more) in self.reports.iter_mut().zip(other.reports) {
            report.add(more);
        }
        self.counted.add(&other.counted);
        self
    }

    /// Whether nothing differed so far.
    pub fn agrees(&self) -> bool {
        self.reports.iter().all(Report::agrees)
    }
}

/// Numbers of the inputs, whatever they count, and how often the rules gave each answer.
pub struct Counted<const COUNTS: usize> {
    pub counts: [u64; COUNTS],
    answered: [u64; NUMBERS],
}

impl<const COUNTS: usize> Counted<COUNTS> {
    fn add(&mut self, other: &Self) {
        let both = [
            (&mut self.counts[..], &other.counts[..]),
            (&mut self.answered, &other.answered),
        ];
        for (counts, more) in both {
            counts.iter_mut().zip(more).for_each(|(n, more)| *n += more);
        }
    }

    /// Counts an answer of the rules.
    pub fn answered(&mut self, number: u64) {
        self.answered[number as usize] += 1;
    }

    /// Prints the counts, by their names, and how often each of the numbers was answered that the calls
    /// can answer with. None may be rarer than `often`, or else the run has not tested it.
    pub fn tell(
        &self,
        name: &'static str,
        names: [&str; COUNTS],
        numbers: &[usize],
        often: u64,
    ) -> Report {
        for (name, count) in names.iter().zip(self.counts) {
            println!("    {count:>11} {name}");
        }
        let mut report = Report::new(name);
        for &number in numbers {
            let times = self.answered[number];
            println!("    {times:>11} times {number}");
            report.check(times >= often, || format!("{number} only {times} times"));
        }
        report
    }
}

/// The sum of all reports, and the functions of the port that they name.
pub struct Tally {
    sum: Report,
    named: BTreeSet<&'static str>,
}

impl Default for Tally {
    fn default() -> Tally {
        Tally {
            sum: Report::new("in all"),
            named: BTreeSet::new(),
        }
    }
}

impl Tally {
    /// Prints a report and adds its numbers to the sum.
    pub fn add(&mut self, report: Report) {
        self.sum.inputs += report.inputs;
        self.sum.by_rule += report.by_rule;
        self.aside(report);
    }

    /// Prints a report whose inputs are no new ones: of its numbers only the differences count.
    pub fn aside(&mut self, report: Report) {
        report.print();
        self.sum.differences += report.differences;
        if report.inputs > 0 {
            self.named.extend(functions(report.name));
        }
    }

    /// Compares the functions that a header declares with those that reports on some input named: none
    /// is left out, and none is named that there isn't.
    pub fn covers(&mut self, header: &str) {
        let declared: BTreeSet<&str> = header
            .lines()
            .filter(|line| !line.starts_with([' ', '*', '/', '#']))
            .flat_map(|line| line.split_once('(').map(|(before, _)| before))
            .flat_map(functions)
            .collect();
        let mut report = Report::new("functions of inscjarol.h, compared");
        for name in declared.union(&self.named) {
            let there = declared.contains(name);
            report.check(there && self.named.contains(name), || match there {
                true => format!("{name} is in no report"),
                false => format!("{name} is not in the header"),
            });
        }
        self.aside(report);
    }

    /// Prints the sum and says whether nothing differed.
    pub fn agreed(&self) -> bool {
        self.sum.print();
        self.sum.agrees()
    }
}

/// The functions of the port that a text names.
fn functions(text: &str) -> impl Iterator<Item = &str> {
    text.split(|c: char| !c.is_ascii_alphanumeric() && c != '_')
        .filter(|word| word.starts_with("las_"))
}
