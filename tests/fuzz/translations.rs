//! What translations have met: words and lines that come again, lengths, refusals for one reason alone; flushes that are carried
//! out. In histories on the module with line flushes the moments of a cut, and the images that an order wrote itself.
use crate::coverage::missed;
use crate::goals::scripts;
use crate::model::call::{Function, Function::*, Lent};
use crate::model::ending::*;
use crate::model::script::{self, Entry, BARRIER, FLUSH, LINE_WORDS, SCRIPT_WORDS};
use crate::model::translate::MODULE_WORDS;
use std::collections::BTreeMap;

const WORD_AGAIN: &str = "a word stored to twice before a barrier";
const LINE_RETURNS: &str = "a line stored to again, after another";
const LINES_FALLING: &str = "a line after a higher one";
const IDLE_BARRIER: &str = "a barrier without a store before it";
const LAST_WORD: &str = "a store to the image's last word";
const EMPTY_IMAGE: &str = "an image without a word";
const LONGEST_IMAGE: &str = "an image of 2^64 - 1 words";
const FULL_SCRIPT: &str = "a script of 50 words";
const EXACT_ROOM: &str = "a buffer of 98 words";
const MORE_ROOM: &str = "a longer buffer";
pub const OF_LIBRARY: &str = "a script of the library";
const AT_LENGTH: &str = "a store just behind the image";
const FAR_OUTSIDE: &str = "a store far behind the image";
const FLUSH_INSIDE: &str = "a flush, in an image that would have its word";
const ROOM_FOR_IT: &str = "a buffer of 97 words that are enough";
const NO_ROOM: &str = "no buffer";
const ONE_MORE: &str = "a script of 52 words";
const ODD_OF_1: &str = "a script of one word";
const FLUSH_THERE: &str = "a flush carried out, of a line that the image has";
const FLUSH_ELSEWHERE: &str = "a flush carried out, of a line just behind the image";
const FLUSH_ANY: &str = "a flush carried out, of line 2^64 - 1";

const MET: [&str; 21] = [
    WORD_AGAIN,
    LINE_RETURNS,
    LINES_FALLING,
    IDLE_BARRIER,
    LAST_WORD,
    EMPTY_IMAGE,
    LONGEST_IMAGE,
    FULL_SCRIPT,
    EXACT_ROOM,
    MORE_ROOM,
    OF_LIBRARY,
    AT_LENGTH,
    FAR_OUTSIDE,
    FLUSH_INSIDE,
    ROOM_FOR_IT,
    NO_ROOM,
    ONE_MORE,
    ODD_OF_1,
    FLUSH_THERE,
    FLUSH_ELSEWHERE,
    FLUSH_ANY,
];

/// How many of a barrier's flushes have passed at a cut, if any.
#[derive(Clone, Copy, PartialEq, Eq, PartialOrd, Ord, Debug)]
enum Flushes {
    None,
    Some,
    All,
}

/// The function, the entries of its script, how many of them were carried out, and the flushes.
type Moment = (Function, usize, usize, Flushes);

/// The scripts with several stores before a barrier: these stores.
const SEVERAL: [Moment; 3] = [(Open, 9, 6, Flushes::Some), (Claim, 15, 10, Flushes::Some), (Claim, 25, 20, Flushes::Some)];

pub const STORING: &str = "recover cut in its stores";
pub const FLUSHING: &str = "recover cut in the driver's flushes";
pub const FENCED: &str = "recover cut after the driver's barrier";
const WRITTEN: [(Function, &str); 3] = [
    (Format, "an image that format wrote, flushed"),
    (Recover, "an image that recover wrote, flushed"),
    (Convert, "a copy that convert wrote, flushed"),
];

#[derive(Default)]
pub struct Translations {
    met: BTreeMap<&'static str, u64>,
    moments: BTreeMap<Moment, u64>,
    histories: BTreeMap<&'static str, u64>,
    scripts: u64,
    cuts: u64,
}

impl Translations {
    pub fn met(&mut self, kind: &'static str) {
        *self.met.entry(kind).or_default() += 1;
    }

    /// A call, by what it is about to be lent for an image of so many words, and how it ends.
    pub fn called(&mut self, lent: &Lent, words: u64, ending: Ending) {
        let entries = script::read(&lent.script);
        let kinds = match ending {
            Ending { answer: 0, .. } => answered(&entries, words, lent.module.len()),
            STORE_OUTSIDE => {
                let nearest = |entry: &Entry| entry.0 == words;
                vec![(entries.iter().any(nearest), AT_LENGTH), (!entries.iter().any(nearest), FAR_OUTSIDE)]
            }
            HOLDS_FLUSH => vec![(words > FLUSH, FLUSH_INSIDE)],
            MODULE_SHORT => {
                vec![
                    (lent.module.len() + 1 == MODULE_WORDS && entries.len() < 20, ROOM_FOR_IT),
                    (lent.module.is_empty(), NO_ROOM),
                ]
            }
            SCRIPT_LONG => vec![(lent.script.len() == SCRIPT_WORDS + 2, ONE_MORE)],
            SCRIPT_ODD => vec![(lent.script.len() == 1, ODD_OF_1)],
            _ => Vec::new(),
        };
        kinds.iter().filter(|(there, _)| *there).for_each(|&(_, kind)| self.met(kind));
    }

    /// A script that was carried out on an image of so many words.
    pub fn applied(&mut self, script: &[u64], words: u64) {
        for (_, line) in script::read(script).into_iter().filter(|entry| entry.0 == FLUSH) {
            match line {
                u64::MAX => self.met(FLUSH_ANY),
                _ if line == (words + LINE_WORDS - 1) / LINE_WORDS => self.met(FLUSH_ELSEWHERE),
                _ if line < words / LINE_WORDS => self.met(FLUSH_THERE),
                _ => (),
            }
        }
    }

    /// A script in a history that was translated, and cut so many times.
    pub fn swept(&mut self, cuts: u64) {
        self.scripts += 1;
        self.cuts += cuts;
    }

    /// A cut in a script of so many of our entries, of which so many were carried out.
    pub fn cut(&mut self, function: Function, entries: usize, far: usize, done: &[Entry], left: &[Entry]) {
        let is_flush = |entry: Option<&Entry>| entry.map_or(false, |entry| entry.0 == FLUSH);
        let flushes = match (is_flush(done.last()), is_flush(left.first())) {
            (false, _) => Flushes::None,
            (true, true) => Flushes::Some,
            (true, false) => Flushes::All,
        };
        *self.moments.entry((function, entries, far, flushes)).or_default() += 1;
    }

    pub fn history(&mut self, kind: &'static str) {
        *self.histories.entry(kind).or_default() += 1;
    }

    pub fn written(&mut self, function: Function) {
        WRITTEN.iter().filter(|written| written.0 == function).for_each(|written| self.history(written.1));
    }

    pub fn print(&self) {
        println!("{} scripts of histories translated, {} cuts of these on the module", self.scripts, self.cuts);
        println!("{} of them recovered", self.moments.values().sum::<u64>());
    }

    pub fn calls_missed(&self) -> Vec<String> {
        missed(&MET, &self.met, |kind| format!("translate: {}", kind))
    }

    pub fn histories_missed(&self) -> Vec<String> {
        let name = |key: &Moment| {
            format!("cut on the module in {} after {} of {} entries, flushes: {:?}", key.0.name(), key.2, key.1, key.3)
        };
        let mut lines = missed(&moments(), &self.moments, name);
        let kinds: Vec<&str> = WRITTEN.iter().map(|written| written.1).chain([STORING, FLUSHING, FENCED]).collect();
        lines.extend(missed(&kinds, &self.histories, |kind| kind.to_string()));
        lines
    }
}

/// The entries of a function's script that are barriers.
fn barriers(function: Function, entries: usize) -> &'static [usize] {
    match (function, entries) {
        (Open, 9) => &[6, 8],
        (Claim, 15) => &[10, 12, 14],
        (Claim, 25) => &[20, 22, 24],
        (_, 4) => &[1, 3],
        (_, 2) => &[1],
        _ => &[],
    }
}

/// Every moment of every script, before the flushes and after those of a barrier; also in these where they may be several. What
/// Recover stores has none.
fn moments() -> Vec<Moment> {
    let plain = |f: Function, entries: usize| (0..=entries).map(move |cut| (f, entries, cut, Flushes::None));
    let flushed = |f: Function, entries: usize| barriers(f, entries).iter().map(move |&cut| (f, entries, cut, Flushes::All));
    let of_script = |f: Function, entries: usize| plain(f, entries).chain(flushed(f, entries));
    let of_each = |&f: &Function| scripts(f).iter().flat_map(move |&entries| of_script(f, entries));
    let scripted = Function::ALL.iter().filter(|&&f| f != Recover);
    scripted.flat_map(of_each).chain(SEVERAL).collect()
}

/// What a script that is translated has.
fn answered(entries: &[Entry], words: u64, room: usize) -> Vec<(bool, &'static str)> {
    let mut kinds = vec![
        (entries.iter().any(|entry| *entry != BARRIER && entry.0 + 1 == words), LAST_WORD),
        (words == 0 && !entries.is_empty(), EMPTY_IMAGE),
        (words == u64::MAX && script::stores(entries) > 0, LONGEST_IMAGE),
        (2 * entries.len() == SCRIPT_WORDS, FULL_SCRIPT),
        (room == MODULE_WORDS, EXACT_ROOM),
        (room > MODULE_WORDS, MORE_ROOM),
        (entries.first() == Some(&BARRIER) || entries.windows(2).any(|two| two == [BARRIER, BARRIER]), IDLE_BARRIER),
    ];
    for stores in entries.split(|entry| *entry == BARRIER) {
        let earlier = |at: usize| &stores[..at];
        let line = |at: usize| stores[at].0 / LINE_WORDS;
        let any = |test: &dyn Fn(usize) -> bool| (1..stores.len()).any(test);
        let returns = |at: usize| line(at) != line(at - 1) && earlier(at).iter().any(|store| store.0 / LINE_WORDS == line(at));
        kinds.push((any(&|at| earlier(at).iter().any(|store| store.0 == stores[at].0)), WORD_AGAIN));
        kinds.push((any(&returns), LINE_RETURNS));
        kinds.push((any(&|at| !returns(at) && line(at) < line(at - 1)), LINES_FALLING));
    }
    kinds
}
