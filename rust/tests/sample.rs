//! The samples that the repository ships are what their generators make, and show what they are there for.

mod common;

#[allow(dead_code)] // its main
#[path = "../examples/contractor.rs"]
mod contractor;

#[allow(dead_code)] // its main
#[path = "../examples/stockpile.rs"]
mod stockpile;

use common::{repository, sample};
use inscjarol::{File, Rule};
use std::fs;

#[test]
fn the_generator_makes_the_shipped_bytes() {
    let shipped = fs::read(sample()).unwrap();
    let made = stockpile::file().unwrap();
    assert!(
        made == shipped,
        "cargo run --example stockpile -- ../samples/stockpile.las"
    );
}

#[test]
fn the_contractors_file_breaks_each_rule_once() {
    let shipped = fs::read(repository().join("samples/contractor.las")).unwrap();
    let made = contractor::file().unwrap();
    assert!(
        made == shipped,
        "cargo run --example contractor -- ../samples/contractor.las"
    );
    let file = File::check(&made).unwrap();
    let mut rules: Vec<Rule> = file.findings().map(|finding| finding.rule).collect();
    rules.sort();
    assert_eq!(rules, Rule::ALL);
    // The other sample has nothing wrong.
    let stockpile = fs::read(sample()).unwrap();
    assert_eq!(File::check(&stockpile).unwrap().finding_count(), 0);
}

#[test]
fn it_has_what_a_survey_has() {
    let bytes = stockpile::file().unwrap();
    assert!(bytes.len() < 200_000);
    let file = File::check(&bytes).unwrap();
    let header = file.header();
    let count =
        |is: fn(inscjarol::Flags) -> bool| file.points().filter(|point| is(point.flags)).count();
    assert!(count(|flags| flags.is_overlap()) > 100);
    assert!(count(|flags| flags.class() == 2 && flags.is_overlap()) > 100);
    assert!(count(|flags| flags.number_of_returns() == 3) > 50);
    assert!(count(|flags| flags.is_edge_of_flight_line()) > 100);
    assert!(count(|flags| flags.is_withheld()) > 0);
    assert!(file
        .points()
        .all(|point| point.extra_bytes.len() == 2 && point.gps_time.is_some()));

    // The header's counts and bounds are those of the points.
    for (number, counted) in (1..).zip(header.points_by_return()) {
        let returned = file
            .points()
            .filter(|point| point.flags.return_number() == number);
        assert_eq!(returned.count() as u64, counted);
    }
    let heights = || file.points().map(|point| point.z);
    assert_eq!(heights().max().map(|z| header.z(z)), Some(header.max_z));
    assert_eq!(heights().min().map(|z| header.z(z)), Some(header.min_z));
}

#[test]
fn ground_in_the_overlap_is_not_lost_on_the_way_down() {
    let bytes = stockpile::file().unwrap();
    let run = File::check(&bytes).unwrap().run();
    let refusal = run.to_old().unwrap_err();
    assert_eq!((refusal.number(), refusal.value()), (19, 2));
    let named = File::check(&bytes)
        .unwrap()
        .points()
        .nth(refusal.record() as usize - 1)
        .unwrap();
    assert!(named.flags.is_overlap() && named.flags.class() == 2);
}
