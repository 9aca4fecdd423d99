//! The deliberate faults, each to be found by the same cases as the library's would be: those of the model, and those in the
//! library's place, by which the comparison itself is tried.
use crate::coverage::Coverage;
use crate::model::fault::Fault;
use crate::run::{case, Kind};
use crate::subject::Subject;
use crate::{spoil, tidy_spoils, translate_spoils};

const BASE: u64 = 2;

/// Cases in which a fault has to be found: ten times as many as any of them needs.
const MOST_CALLS: u64 = 30_000;
const MOST_HISTORIES: u64 = 1200;

/// After how many cases there is a difference, if there is one.
fn find(subject: Subject, kind: Kind, most: u64) -> Option<u64> {
    (1..=most).find(|&number| case(kind.seed(BASE, number), subject, &mut Coverage::default()).is_err())
}

/// True if the fault is found.
fn try_fault(name: String, subject: Subject, kind: Kind, most: u64) -> bool {
    let found = find(subject, kind, most);
    let verdict = found.map_or(format!("FAILED: not found in {} cases", most), |number| format!("found in case {}", number));
    println!("{:70} {}", name, verdict);
    found.is_some()
}

/// True if nothing is found where there is no fault, in a tenth of the cases.
fn try_none(name: &str, subject: Subject, kind: Kind, most: u64) -> bool {
    let found = find(subject, kind, most / 10);
    println!("{:70} {}", name, if found.is_none() { "none found" } else { "FAILED: one found" });
    found.is_none()
}

/// True if every fault is found, and none where there is none.
pub fn find_all() -> bool {
    let (calls, histories) = ((Kind::Calls, MOST_CALLS), (Kind::Histories, MOST_HISTORIES));
    let mut good = try_none("calls: no fault", Subject::Faulty(Fault::None), calls.0, calls.1);
    good &= try_none("histories: no fault", Subject::Faulty(Fault::None), histories.0, histories.1);
    for (name, (kind, most), alone) in [("calls", calls, &Fault::BY_CALLS[..]), ("histories", histories, &Fault::BY_HISTORIES)] {
        for &(fault, text) in alone.iter().chain(&Fault::BY_BOTH) {
            good &= try_fault(format!("{}: {}", name, text), Subject::Faulty(fault), kind, most);
        }
    }
    let more = (tidy_spoils::OF_CALLS.iter(), tidy_spoils::OF_HISTORIES.iter());
    let of_calls = spoil::OF_CALLS.iter().chain(more.0).chain(&translate_spoils::OF_CALLS).collect::<Vec<_>>();
    let of_histories = spoil::OF_HISTORIES.iter().chain(more.1).chain(&translate_spoils::OF_HISTORIES).collect();
    for (name, (kind, most), spoils) in [("calls", calls, of_calls), ("histories", histories, of_histories)] {
        for spoil in spoils {
            good &= try_fault(format!("{}, library: {}", name, spoil.text), Subject::Spoilt(spoil), kind, most);
        }
    }
    println!("faults: {}", if good { "each found" } else { "FAILED" });
    good
}
