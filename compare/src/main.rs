//! Holds the proved programs against the peer on made inputs, and watches the promise in what the proved one shows.

mod cases;
mod given;
mod images;
mod met;
mod programs;
mod sheets;
mod watch;
mod work;

use std::collections::BTreeMap;
use std::process::ExitCode;
use work::Difference;

/// So many differences of each kind are told.
const TOLD: usize = 3;

/// The kinds, how many differ of each, and the first few of them.
fn tell(differences: &[Difference]) {
    let mut kinds: BTreeMap<&str, Vec<&Difference>> = BTreeMap::new();
    for difference in differences {
        kinds.entry(&difference.what).or_default().push(difference);
    }
    for (what, mut found) in kinds {
        found.sort_by_key(|difference| difference.number);
        println!("Of the kind \"{what}\" {} differ.", found.len());
        found.iter().take(TOLD).for_each(|d| d.tell());
    }
}

/// So many times as many inputs as without an argument; the first of them are the same.
fn times() -> Option<usize> {
    match std::env::args().nth(1) {
        Some(word) => word.parse().ok(),
        None => Some(1),
    }
}

fn main() -> ExitCode {
    let Some(times) = times() else {
        eprintln!("compare [TIMES]");
        return ExitCode::FAILURE;
    };
    let mut differences = programs::compare(times);
    differences.extend(sheets::compare(times));
    differences.extend(cases::compare(times));
    if differences.is_empty() {
        println!("Nothing differs, no wait was longer than was told, and none was told longer than the longest.");
        return ExitCode::SUCCESS;
    }
    tell(&differences);
    ExitCode::FAILURE
}
