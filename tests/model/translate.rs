//! Translate: one of our scripts becomes one of the module's. Before each barrier comes one flush for each line stored to since
//! the barrier before, in order of first store.
use super::call::{Call, Lent};
use super::ending::*;
use super::fault::Fault;
use super::operations::Ended;
use super::script::{self, is_store, Entry, BARRIER, FLUSH, LINE_WORDS, SCRIPT_WORDS};

pub const MODULE_WORDS: usize = 98;

pub fn translate(call: &Call, lent: &mut Lent, fault: Fault) -> Ended {
    let entries = script::read(&lent.script);
    let translated = translated(&entries, fault);
    let refused = refusal(&lent.script, &lent.module, call.words, &translated, fault);
    if refused.is_none() || fault == Fault::WrittenThenRefused {
        let room = translated.len().min(lent.module.len() / 2);
        script::write(&mut lent.module, &translated[..room]);
    }
    if let Some(refusal) = refused {
        return Err(refusal);
    }
    if fault == Fault::TailCleared {
        lent.module[2 * translated.len()..].fill(0);
    }
    Ok((shape(&entries), 2 * translated.len() as u64))
}

/// Why it is refused, if it is: each reason is 3.
fn refusal(script: &[u64], module: &[u64], image_words: u64, translated: &[Entry], fault: Fault) -> Option<Ending> {
    let fits = 2 * translated.len() <= module.len();
    let buffer = match fault {
        Fault::BufferOf97Taken if fits => MODULE_WORDS - 1,
        Fault::BufferByNeed => 2 * translated.len(),
        Fault::ShortForEmptyTaken if script.is_empty() => 0,
        _ => MODULE_WORDS,
    };
    let most = match fault {
        Fault::ScriptOf50Refused => SCRIPT_WORDS - 2,
        Fault::ScriptOf52Taken if fits => SCRIPT_WORDS + 2,
        _ => SCRIPT_WORDS,
    };
    let entries = script::read(script);
    let is_flush = |entry: &Entry| entry.0 == FLUSH && (fault != Fault::FlushIsStore || FLUSH >= image_words);
    let is_outside = |entry: &Entry| match fault {
        Fault::StoreAtLengthTaken => is_store(entry) && entry.0 > image_words,
        _ => is_store(entry) && entry.0 >= image_words,
    };
    let is_barrier = |entry: &Entry| *entry == BARRIER || entry.0 == BARRIER.0 && fault == Fault::ValueOfBarrierTaken;
    let tests = [
        (module.len() < buffer && script.is_empty(), MODULE_SHORT_FOR_NONE),
        (module.len() < buffer && !script.is_empty(), MODULE_SHORT),
        (script.len() % 2 != 0 && fault != Fault::OddTaken, SCRIPT_ODD),
        (script.len() > most, SCRIPT_LONG),
        (entries.iter().any(is_outside), STORE_OUTSIDE),
        (entries.iter().any(|entry| entry.0 == BARRIER.0 && !is_barrier(entry)), BARRIER_VALUE),
        (entries.iter().any(is_flush) && fault != Fault::FlushTaken, HOLDS_FLUSH),
        (entries.last().map_or(false, |last| !is_barrier(last)) && fault != Fault::UnfencedTaken, NO_LAST_BARRIER),
        (script.is_empty() && fault == Fault::EmptyScriptRefused, SCRIPT_ODD),
    ];
    let mut reasons = tests.iter().filter(|(wrong, _)| *wrong).map(|&(_, reason)| reason);
    let first = reasons.next();
    first.map(|reason| if reasons.next().is_some() { SEVERAL_WRONG } else { reason })
}

pub fn line(entry: &Entry, fault: Fault) -> u64 {
    match fault {
        Fault::LineIsWord => entry.0,
        Fault::LineOf64 => entry.0 / 64,
        _ => entry.0 / LINE_WORDS,
    }
}

/// The module's entries. A script that does not end in a barrier, which only a fault takes, keeps its last stores.
pub fn translated(entries: &[Entry], fault: Fault) -> Vec<Entry> {
    let mut translated = Vec::new();
    let mut from = 0;
    for at in (0..entries.len()).filter(|&at| entries[at].0 == BARRIER.0) {
        let lines = lines_before(entries, from, at, fault);
        let flushes = lines.iter().map(|&line| (FLUSH, line));
        let stores = &entries[from..at];
        match fault {
            Fault::FlushBeforeStore => translated.extend(flushes.chain(stores.iter().copied()).chain([entries[at]])),
            Fault::FlushAtStore => {
                translated.extend(with_flushes_inside(stores, fault));
                translated.push(entries[at]);
            }
            Fault::FlushAfterBarrier => translated.extend(entries[from..=at].iter().copied().chain(flushes)),
            Fault::IdleBarrierDropped if stores.is_empty() => (),
            _ => translated.extend(stores.iter().copied().chain(flushes).chain([entries[at]])),
        }
        from = at + 1;
    }
    translated.extend_from_slice(&entries[from..]);
    translated
}

/// Each line once, in order of its first store.
fn lines_of(stores: &[Entry], fault: Fault) -> Vec<u64> {
    let mut lines: Vec<u64> = Vec::new();
    for line in stores.iter().filter(|entry| is_store(entry)).map(|entry| line(entry, fault)) {
        let known = match fault {
            Fault::FlushForEachStore => false,
            Fault::FlushForEachChange => lines.last() == Some(&line),
            _ => lines.contains(&line),
        };
        if fault == Fault::LinesByLastStore {
            lines.retain(|&other| other != line);
            lines.push(line);
        } else if !known {
            lines.push(line);
        }
    }
    lines
}

/// The lines to be flushed before the barrier at this entry; the barrier before is the entry before `from`.
fn lines_before(entries: &[Entry], from: usize, at: usize, fault: Fault) -> Vec<u64> {
    let mut lines = lines_of(&entries[from..at], fault);
    match fault {
        Fault::FlushOnce => {
            let earlier = lines_of(&entries[..from], fault);
            lines.retain(|line| !earlier.contains(line));
        }
        Fault::FlushesAtEnd => {
            let is_last = !entries[at + 1..].contains(&BARRIER);
            lines = if is_last { lines_of(&entries[..at], fault) } else { Vec::new() };
        }
        Fault::SecondLineForgotten => lines.truncate(1),
        Fault::LinesRising => lines.sort_unstable(),
        Fault::EarlierLinesToo => lines = lines_of(&entries[..at], fault),
        _ => (),
    }
    lines
}

/// A fault: each line is flushed right behind its first store.
fn with_flushes_inside(stores: &[Entry], fault: Fault) -> Vec<Entry> {
    let mut translated = Vec::new();
    for store in stores {
        translated.push(*store);
        let flush = (FLUSH, line(store, fault));
        if !translated.contains(&flush) {
            translated.push(flush);
        }
    }
    translated
}

fn shape(entries: &[Entry]) -> Ending {
    let segments: Vec<&[Entry]> = entries.split(|entry| *entry == BARRIER).collect();
    let lines: Vec<Vec<u64>> = segments.iter().map(|stores| lines_of(stores, Fault::None)).collect();
    let count = lines.iter().map(Vec::len).max().unwrap_or(0);
    let again = lines.iter().enumerate().any(|(at, now)| lines[..at].iter().flatten().any(|line| now.contains(line)));
    match (entries.len(), count) {
        (0, _) => TRANSLATED_NONE,
        (_, 0) => TRANSLATED_BARRIERS,
        (_, 24) => TRANSLATED_WHOLE,
        _ if again => TRANSLATED_AGAIN,
        (_, 1) => TRANSLATED_LINE,
        _ => TRANSLATED_LINES,
    }
}
