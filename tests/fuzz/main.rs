//! Fuzzing of the library against the model: a number of cases, one case again, or the deliberate faults.
//! A case is known by its seed: an even one is some calls on one image, an odd one a history with crashes.
mod book;
mod brim;
mod calls;
mod cases;
mod conversions;
mod convert_cases;
mod coverage;
mod crash;
mod damage;
mod directed;
mod ebb;
mod faults;
mod flushing;
mod goals;
mod groups;
mod history;
mod lending;
mod library;
mod lines;
mod lookups;
#[path = "../model/mod.rs"]
mod model;
mod moving;
mod path_cases;
mod paths;
mod plan;
mod random;
mod recovery;
mod report;
mod run;
mod spoil;
mod start;
mod subject;
mod table_cases;
mod tables;
mod tidy_cases;
mod tidy_spoils;
mod tidying;
mod translate_cases;
mod translate_spoils;
mod translating;
mod translations;
mod trees;
mod trip;

use std::process::exit;
use std::time::{SystemTime, UNIX_EPOCH};

const USAGE: &str = "usage: fuzz CASES [random] | fuzz case SEED | fuzz faults";

/// The base of the gate's cases: the same ones each time.
const BASE: u64 = 1;

fn number(text: &str) -> u64 {
    text.parse().unwrap_or_else(|_| {
        eprintln!("fuzz: not a number: {}\n{}", text, USAGE);
        exit(2)
    })
}

fn main() {
    let words: Vec<String> = std::env::args().skip(1).collect();
    let words: Vec<&str> = words.iter().map(String::as_str).collect();
    let good = match words[..] {
        ["faults"] => faults::find_all(),
        ["case", seed] => run::repeat(number(seed)),
        [cases] => run::run(number(cases), BASE),
        [cases, "random"] => {
            let time = SystemTime::now().duration_since(UNIX_EPOCH).map_or(BASE, |time| time.as_nanos() as u64);
            run::run(number(cases), time)
        }
        _ => {
            eprintln!("{}", USAGE);
            exit(2)
        }
    };
    exit(if good { 0 } else { 1 })
}
