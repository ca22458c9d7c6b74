//! How far long work has come, for whoever watches: one line on the standard error, where that is a terminal, once the work
//! has taken a second.

use super::os;
use std::{
    io::{self, Write},
    sync::{
        atomic::{AtomicBool, AtomicU64, Ordering},
        Arc,
    },
    thread::{self, JoinHandle},
    time::{Duration, Instant},
};

/// Before this nothing is shown.
const PATIENCE: Duration = Duration::from_secs(1);

/// How many characters a line is taken to have where the terminal does not say so.
const USUAL_WIDTH: usize = 80;

/// How often the line is written anew.
const PAUSE: Duration = Duration::from_millis(250);

/// Work that is watched until this is dropped.
pub(crate) struct Progress {
    state: Arc<State>,
    watcher: Option<JoinHandle<()>>,
}

struct State {
    done: AtomicU64,
    over: AtomicBool,
}

impl Progress {
    /// Work of this name. Where it is known how much there is to do, [`Progress::at`] tells how far it is; else only the
    /// time is shown.
    pub(crate) fn new(what: String, total: Option<u64>) -> Progress {
        let state = Arc::new(State {
            done: AtomicU64::new(0),
            over: AtomicBool::new(false),
        });
        let watched = Arc::clone(&state);
        let watcher = os::is_terminal(&io::stderr()).then(|| {
            // Without a thread there is no line, and the work goes on.
            thread::Builder::new()
                .spawn(move || watch(&watched, &what, total))
                .ok()
        });
        Progress {
            state,
            watcher: watcher.flatten(),
        }
    }

    /// Work that writes to the standard output: where that is a terminal too, its lines are what is watched.
    pub(crate) fn of_output(what: String, total: u64) -> Option<Progress> {
        (!os::is_terminal(&io::stdout())).then(|| Progress::new(what, Some(total)))
    }

    /// That this much is done.
    pub(crate) fn at(&self, done: u64) {
        self.state.done.store(done, Ordering::Relaxed);
    }
}

impl Drop for Progress {
    fn drop(&mut self) {
        self.state.over.store(true, Ordering::Relaxed);
        if let Some(watcher) = self.watcher.take() {
            watcher.thread().unpark();
            let _ = watcher.join();
        }
    }
}

/// Shows the line until the work is over, and then removes it.
fn watch(state: &State, what: &str, total: Option<u64>) {
    let begun = Instant::now();
    let mut shown = false;
    while !state.over.load(Ordering::Relaxed) {
        let taken = begun.elapsed();
        if taken >= PATIENCE {
            let width = os::width(&io::stderr());
            let line = line(what, state.done.load(Ordering::Relaxed), total, taken);
            let line = fitted(&line, width.unwrap_or(USUAL_WIDTH));
            let _ = write!(io::stderr(), "\r\x1b[K{line}");
            shown = true;
        }
        thread::park_timeout(PAUSE);
    }
    if shown {
        let _ = write!(io::stderr(), "\r\x1b[K");
    }
}

/// What is shown.
fn line(what: &str, done: u64, total: Option<u64>, taken: Duration) -> String {
    let seconds = taken.as_secs();
    match total {
        Some(total) if total > 0 => {
            let percent = u128::from(done).saturating_mul(100) / u128::from(total);
            format!("{what}: {percent} %, {seconds} s")
        }
        _ => format!("{what}: {seconds} s"),
    }
}

/// How many places of a line a character takes, at most.
fn places(c: char) -> usize {
    match c.is_ascii() {
        true => 1,
        false => 2,
    }
}

/// A line that stays within this width, so that it can be written over: where it is longer, its beginning goes, since how far
/// the work has come stands at its end. The last place of a line stays free, where some terminals go to the next line.
fn fitted(line: &str, width: usize) -> String {
    let room = width.saturating_sub(1);
    if line.chars().map(places).sum::<usize>() <= room {
        return line.to_string();
    }
    let dots = room.min(3);
    let mut left = room.saturating_sub(dots);
    let mut kept: Vec<char> = Vec::new();
    for c in line.chars().rev() {
        match left.checked_sub(places(c)) {
            Some(rest) => left = rest,
            None => break,
        }
        kept.push(c);
    }
    let end: String = kept.into_iter().rev().collect();
    format!("{}{end}", ".".repeat(dots))
}

#[cfg(test)]
mod tests {
    use super::*;

    #[test]
    fn the_line_fits() {
        let line = "points of a/long/way/to/survey.las: 25 %, 2 s";
        assert_eq!(fitted(line, 46), line);
        assert_eq!(fitted(line, 20), "...y.las: 25 %, 2 s");
        for width in 0..60 {
            assert!(fitted(line, width).chars().count() <= width.saturating_sub(1));
        }
        assert_eq!(fitted("測量測量.las: 25 %", 18), "...測量.las: 25 %");
    }

    #[test]
    fn the_line() {
        let taken = Duration::from_millis(2_900);
        assert_eq!(line("points", 50, Some(200), taken), "points: 25 %, 2 s");
        assert_eq!(
            line("points", u64::MAX, Some(u64::MAX), taken),
            "points: 100 %, 2 s"
        );
        assert_eq!(line("rewriting", 0, None, taken), "rewriting: 2 s");
        assert_eq!(line("nothing", 0, Some(0), taken), "nothing: 2 s");
    }

    #[test]
    fn it_ends_at_once() {
        let begun = Instant::now();
        let progress = Progress::new(String::from("work"), Some(2));
        progress.at(1);
        drop(progress);
        assert!(begun.elapsed() < Duration::from_secs(1));
    }
}
