//! Runs a number of cases, calls and histories at once, each on a thread of its own.
use crate::coverage::Coverage;
use crate::model::fault::Fault;
use crate::random::mix;
use crate::subject::Subject;
use crate::{calls, cases, history};
use std::sync::atomic::{AtomicBool, AtomicU64, Ordering};
use std::thread;
use std::time::{Duration, Instant};

/// A history takes as long as this many cases of calls.
const CALLS_TO_A_HISTORY: u64 = 50;

/// A case still running after this long does not end. No other verdict is by the clock; a case takes a second at most, so that a
/// machine may be hundreds of times slower.
const WITHOUT_END: Duration = Duration::from_secs(600);

#[derive(Clone, Copy, PartialEq, Eq)]
pub enum Kind {
    Calls,
    Histories,
}

impl Kind {
    fn of(seed: u64) -> Kind {
        if seed % 2 == 0 {
            Kind::Calls
        } else {
            Kind::Histories
        }
    }

    /// The seed of a base's case of this kind.
    pub fn seed(self, base: u64, number: u64) -> u64 {
        mix(base, number) & !1 | u64::from(self == Kind::Histories)
    }
}

pub fn case(seed: u64, subject: Subject, coverage: &mut Coverage) -> Result<(), String> {
    match Kind::of(seed) {
        Kind::Calls => calls::case(seed, subject, coverage),
        Kind::Histories => history::case(seed, subject, coverage),
    }
}

pub fn repeat(seed: u64) -> bool {
    let result = case(seed, Subject::Library, &mut Coverage::default());
    println!("case {}: {}", seed, result.as_ref().err().map_or("no difference", String::as_str));
    result.is_ok()
}

/// The seeds of the cases under way, by kind, to be named where one cannot return: without end, by a signal, by a panic.
static UNDER_WAY: [AtomicU64; 2] = [AtomicU64::new(NONE), AtomicU64::new(NONE)];
const NONE: u64 = 0;
static FAILED: AtomicBool = AtomicBool::new(false);

fn under_way() -> String {
    let seeds = UNDER_WAY.iter().map(|seed| seed.load(Ordering::Relaxed)).filter(|&seed| seed != NONE);
    let seeds: Vec<String> = seeds.map(|seed| format!("SEED={}", seed)).collect();
    format!("repeat with make fuzz {}", seeds.join(" or "))
}

extern "C" {
    fn signal(number: i32, handler: extern "C" fn(i32)) -> usize;
}

/// SIGILL, SIGBUS, SIGFPE, SIGSEGV.
const FATAL_SIGNALS: [i32; 4] = [4, 7, 8, 11];

extern "C" fn die(number: i32) {
    eprintln!("signal {}; {}", number, under_way());
    std::process::abort();
}

/// Runs so many cases, or until something failed. How many, and what they reached.
fn work(kind: Kind, base: u64, most: u64) -> (u64, Coverage) {
    let mut coverage = Coverage::default();
    let mut cases = 0;
    while !FAILED.load(Ordering::Relaxed) && cases < most {
        let seed = kind.seed(base, cases);
        UNDER_WAY[kind as usize].store(seed, Ordering::Relaxed);
        if let Err(text) = case(seed, Subject::Library, &mut coverage) {
            FAILED.store(true, Ordering::Relaxed);
            println!("{}\nrepeat with make fuzz SEED={}", text, seed);
        }
        cases += 1;
    }
    UNDER_WAY[kind as usize].store(NONE, Ordering::Relaxed);
    (cases, coverage)
}

/// Ends the run where a case does not end.
fn watch(finished: impl Fn() -> bool) {
    let mut seen = [(NONE, Instant::now()); 2];
    while !finished() {
        for (seen, seed) in seen.iter_mut().zip(&UNDER_WAY) {
            let seed = seed.load(Ordering::Relaxed);
            if seed == NONE || seed != seen.0 {
                *seen = (seed, Instant::now());
            } else if seen.1.elapsed() > WITHOUT_END {
                eprintln!("a case does not end; repeat with make fuzz SEED={}", seed);
                std::process::exit(1);
            }
        }
        thread::sleep(Duration::from_millis(20));
    }
}

/// True if nothing differed and everything was reached.
pub fn run(cases: u64, base: u64) -> bool {
    let specified = cases::check("model", Subject::Faulty(Fault::None)) & cases::check("library", Subject::Library);
    FAILED.store(!specified, Ordering::Relaxed);
    for number in FATAL_SIGNALS {
        // Sound: the handler only reads, prints and aborts.
        unsafe { signal(number, die) };
    }
    let (calls, histories) = thread::scope(|scope| {
        let calls = scope.spawn(|| work(Kind::Calls, base, cases));
        let histories = scope.spawn(|| work(Kind::Histories, base, cases / CALLS_TO_A_HISTORY));
        watch(|| calls.is_finished() && histories.is_finished());
        (calls.join(), histories.join())
    });
    match (calls, histories) {
        (Ok(calls), Ok(histories)) => report(&calls, &histories),
        _ => {
            println!("a case panics; {}", under_way());
            false
        }
    }
}

fn report(calls: &(u64, Coverage), histories: &(u64, Coverage)) -> bool {
    let mut good = !FAILED.load(Ordering::Relaxed);
    if good {
        calls.1.print_calls();
        histories.1.print_histories();
        let missed = [calls.1.calls_missed(), histories.1.histories_missed()].concat();
        missed.iter().for_each(|line| println!("{}", line));
        good = missed.is_empty();
    }
    let verdict = if good { "no difference, everything reached" } else { "FAILED" };
    println!("fuzz: {} cases of calls, {} histories: {}", calls.0, histories.0, verdict);
    good
}
