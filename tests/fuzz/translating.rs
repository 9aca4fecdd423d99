//! Calls of Translate, over scripts good and bad: those of the library, and such as are drawn, with few lines and words that come
//! again. Answer, words used and both buffers are compared with the model's.
use crate::coverage::Coverage;
use crate::crash::contents_here;
use crate::lines::Lines;
use crate::model::buffer::Buffer;
use crate::model::call::{Call, Function, Handed, Lent};
use crate::model::fault::Fault;
use crate::model::module::{as_far, contents};
use crate::model::operations::{self, Outcome};
use crate::model::script::{self, is_store, Entry, BARRIER, FLUSH, LINE_WORDS, SCRIPT_WORDS};
use crate::model::translate::MODULE_WORDS;
use crate::random::Random;
use crate::report;
use crate::subject::Subject;
use std::collections::BTreeSet;

/// A prime above 24: stores a number of lines apart come to each of so many lines once.
const SPREAD: u64 = 31;

/// What Translate is lent, in the copies that the calls are made on.
pub struct Translating {
    pub lent: Lent,
    expected: Lent,
}

pub fn call(words: u64) -> Call {
    Call { function: Function::Translate, slots: 0, nodes: 0, head: 0, reel: 0, frame: 0, words }
}

impl Translating {
    pub fn new() -> Translating {
        let none = || Buffer::of([]);
        let (image, copy, map, heads) = (none(), none(), none(), none());
        let lent = Lent { image, copy, map, heads, script: none(), scratch: none(), list: none(), module: none(), table: None };
        Translating { expected: lent.clone(), lent }
    }

    /// A script, with a buffer of any content.
    pub fn lend(&mut self, script: &[u64], room: usize, random: &mut Random) {
        self.lent.script.resize(script.len(), || 0);
        self.lent.script.copy_from_slice(script);
        let junk = random.word();
        self.lent.module.resize(room, || junk);
        self.lent.module.fill(junk);
    }

    /// Translates, for an image of so many words. `fault` is that of the model which it is compared with.
    pub fn perform(&mut self, subject: Subject, words: u64, fault: Fault) -> Result<Outcome, String> {
        self.expected.clone_from(&self.lent);
        let call = call(words);
        let outcome = operations::perform(&call, &mut self.expected, fault);
        let found = subject.perform(&call, &mut self.lent, !words);
        if outcome.handed == found && self.expected == self.lent {
            return Ok(outcome);
        }
        let script = script::read(&self.expected.script);
        let differs = report::difference(&call, &[], (outcome.handed, &self.expected), (found, &self.lent));
        Err(format!("{}\nscript {:x?}", differs, script))
    }

    /// The same, counted.
    pub fn compare(&mut self, subject: Subject, words: u64, coverage: &mut Coverage) -> Result<(), String> {
        let ending = self.perform(subject, words, Fault::None)?.ending;
        coverage.translated(&self.lent, words, ending);
        Ok(())
    }

    /// The entries that were handed back.
    pub fn entries(&self, handed: &Handed) -> Vec<Entry> {
        script::read(&self.lent.module[..handed.count as usize])
    }

    /// Draws a script, mostly good, and a buffer. The image's length.
    pub fn draw(&mut self, random: &mut Random) -> u64 {
        let words = match random.below(8) {
            0 => random.below(3),
            1 => u64::MAX - random.below(3),
            2 => random.odd_word(&[SCRIPT_WORDS as u64]),
            _ => random.between(LINE_WORDS, SPREAD * LINE_WORDS),
        };
        let mut entries = if random.one_in(8) { spread(random, words) } else { segments(random, words) };
        let wrong = random.pick(&[0, 0, 0, 1, 1, 1, 1, 2]);
        for _ in 0..wrong {
            make_wrong(random, &mut entries, words);
        }
        let mut script: Vec<u64> = entries.iter().flat_map(|entry| [entry.0, entry.1]).collect();
        if random.one_in(10) {
            script.push(random.word());
        }
        let most = MODULE_WORDS as u64 - 1;
        let room = if random.one_in(6) { random.pick(&[0, 1, 50, most - 1, most, most, most]) } else { most + 1 };
        let room = if room > most { random.pick(&[room, room, room + 1, room + 22]) } else { room };
        self.lend(&script, room as usize, random);
        words
    }
}

/// Stores and barriers, the last of these at the end. No store where there is no word.
fn segments(random: &mut Random, words: u64) -> Vec<Entry> {
    let full = SCRIPT_WORDS as u64 / 2;
    let count = match random.below(6) {
        0 => return Vec::new(),
        1 => full,
        _ => random.between(1, full),
    };
    let barriers = random.pick(&[2, 4, 40]);
    let span = words.min(LINE_WORDS * random.pick(&[1, 2, 3, 5, 30]));
    let first = random.pick(&[0, words - span]);
    let mut entries: Vec<Entry> = Vec::new();
    for _ in 1..count {
        let barrier = span == 0 || random.one_in(barriers);
        entries.push(if barrier { BARRIER } else { (first + random.below(span), random.word()) });
    }
    entries.push(BARRIER);
    entries
}

/// As many stores as there can be, each to a line of its own, if there are as many.
fn spread(random: &mut Random, words: u64) -> Vec<Entry> {
    let (first, step) = (random.below(SPREAD), random.between(1, SPREAD - 1));
    let stores = (1..SCRIPT_WORDS as u64 / 2).map(|number| {
        let index = (first + step * number) % SPREAD * LINE_WORDS + number % LINE_WORDS;
        (index % words.max(1), number)
    });
    stores.filter(|store| store.0 < words).chain([BARRIER]).collect()
}

/// A store outside, a barrier with a value, a flush, no barrier at the end, or too many entries.
fn make_wrong(random: &mut Random, entries: &mut Vec<Entry>, words: u64) {
    let value = random.between(1, u64::MAX);
    let entry = match random.below(7) {
        0 => (words.saturating_add(random.below(2)), value),
        1 => (words.saturating_add(random.word() >> random.below(64)), value),
        2 => (BARRIER.0, value),
        3 => (FLUSH, random.odd_word(&[words / LINE_WORDS])),
        4 => {
            entries.pop();
            return;
        }
        5 => (random.below(words.max(1)), value),
        _ => {
            let more = random.pick(&[26, 26, 27, 30]);
            entries.resize_with(more, || (random.below(words.max(1)), value));
            entries.push(BARRIER);
            entries.remove(0);
            return;
        }
    };
    let at = if random.one_in(4) { entries.len() } else { random.below(entries.len() as u64 + 1) as usize };
    // In a full script, and now and then else, it takes another one's place, but not that of the last.
    if at + 1 < entries.len() && (entries.len() == SCRIPT_WORDS / 2 || random.one_in(2)) {
        entries[at] = entry;
    } else {
        entries.insert(at, entry);
    }
}

/// Cut after each entry of the translation: each word may hold what it may on the present module, cut as far into our script, and
/// all of that. Words are by themselves, so this is every mixture. The cuts.
pub fn sweep(image: &[u64], entries: &[Entry], translated: &[Entry], fault: Fault) -> Result<u64, String> {
    let ours = translated.iter().filter(|entry| entry.0 != FLUSH);
    if !ours.eq(entries) {
        return Err(format!("of {:x?} the translation makes {:x?}", entries, translated));
    }
    let words: BTreeSet<u64> = entries.iter().filter(|entry| is_store(entry)).map(|store| store.0).collect();
    let mut lines = Lines::new(image, fault);
    for cut in 0..=translated.len() {
        if cut > 0 {
            lines.step(translated[cut - 1]);
        }
        let far = as_far(&translated[..cut]);
        for &word in &words {
            let (there, here) = (lines.contents(word), contents_here(image, &entries[..far], word));
            let is_same = there.iter().all(|value| here.contains(value)) && here.iter().all(|value| there.contains(value));
            if !is_same {
                let cut = format!("cut after {} of {} entries, {} of ours", cut, translated.len(), far);
                return Err(format!("{}: word {} may hold {:x?} there, {:x?} here", cut, word, there, here));
            }
        }
    }
    Ok(translated.len() as u64 + 1)
}

/// Entries for the module, flushes or barriers lacking or too many: after each of them each word may hold what the request says.
pub fn check_lines(random: &mut Random, fault: Fault) -> Result<(), String> {
    let image: Vec<u64> = (0..2 * LINE_WORDS).collect();
    let count = random.between(2, 12);
    let words = [0, 0, 1, 7, LINE_WORDS, 2 * LINE_WORDS - 1];
    let mut entries: Vec<Entry> = Vec::new();
    let mut lines = Lines::new(&image, fault);
    for number in 0..count {
        entries.push(match random.below(6) {
            0 | 1 => BARRIER,
            2 | 3 => (FLUSH, random.pick(&[0, 0, 1, 2])),
            _ => (random.pick(&words), 100 + number),
        });
        lines.step(entries[entries.len() - 1]);
        for word in words {
            let (found, expected) = (lines.contents(word), contents(&image, &entries, word));
            if found != expected {
                return Err(format!("after {:?}: word {} may hold {:?}, by the request {:?}", entries, word, found, expected));
            }
        }
    }
    Ok(())
}
