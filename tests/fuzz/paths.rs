//! How far lookups have gone: by the nodes on the path and where on it the frame is found; in histories also by what the reel has
//! had since it was opened, and by where a claim was cut that reaches 64 or passes it.
use crate::coverage::{missed, named};
use crate::model::call::{Call, Function};
use crate::model::ending::BAD_TABLES;
use crate::model::fault::Fault;
use crate::model::loads::{load, Loads, BRIM};
use crate::model::path_nodes::Way;
use crate::model::rule::*;
use crate::model::table::Table;
use std::collections::BTreeMap;

/// How many nodes a path has: some are 3 to 31, all are 32. There are never more.
#[derive(Clone, Copy, PartialEq, Eq, PartialOrd, Ord, Debug)]
enum Far {
    None,
    One,
    Two,
    Some,
    All,
    More,
}

/// What is met on it: the frame, in its last node, above it, or in none; or a malformed node below those counted.
#[derive(Clone, Copy, PartialEq, Eq, PartialOrd, Ord, Debug)]
enum Met {
    AtEnd,
    Above,
    Absent,
    Malformed,
}

/// The path of a lookup that is answered.
const GONE: [(Far, Met); 11] = [
    (Far::One, Met::AtEnd),
    (Far::Two, Met::AtEnd),
    (Far::Some, Met::AtEnd),
    (Far::All, Met::AtEnd),
    (Far::Two, Met::Above),
    (Far::Some, Met::Above),
    (Far::All, Met::Above),
    (Far::One, Met::Absent),
    (Far::Two, Met::Absent),
    (Far::Some, Met::Absent),
    (Far::All, Met::Absent),
];

/// And of one that is refused.
const STOPPED: [(Far, Met); 4] =
    [(Far::None, Met::Malformed), (Far::One, Met::Malformed), (Far::Two, Met::Malformed), (Far::Some, Met::Malformed)];

const FEWER: &str = "1 for fewer than 64";
const BRIM_HELD: &str = "1 for 64 held";
const BRIM_CLAIMED: &str = "1 for 63 held and one claimed";
const BRIM_FILLED: &str = "1 for 63 held and one filled";
const BRIM_BEFORE: &str = "1 for fewer than 64 after 64";
const CUT_OPEN: &str = "1 where the open was cut short";
const ANEW: &str = "1 for one opened anew that had more than 64";
const RECOVERED: &str = "1 just after a recovery";
const MORE_NOW: &str = "2 or more for more than 64";
const MORE_BEFORE: &str = "2 or more for 64 or fewer after more";
const CUT_BEFORE: &str = "1 for 64 or fewer after more";
const FOUND_LONE: &str = "1 for a reel found on an image";
const FOUND_MORE: &str = "2 or more for a reel found on an image with 64 or fewer";
const FOUND_MANY: &str = "2 or more for a reel found on an image with more than 64";
pub const AFTER_NO_RUN: &str = "1 after a claim of the 65th refused 8";
pub const AFTER_BUSY: &str = "1 after a claim of another head refused 13 from 61 on";

/// Never.
const TOO_FEW: &str = "1 for more than 64";

/// What Has tells of reels in histories.
const REELS: [&str; 16] = [
    FEWER,
    BRIM_HELD,
    BRIM_CLAIMED,
    BRIM_FILLED,
    BRIM_BEFORE,
    CUT_OPEN,
    ANEW,
    RECOVERED,
    MORE_NOW,
    MORE_BEFORE,
    CUT_BEFORE,
    FOUND_LONE,
    FOUND_MORE,
    FOUND_MANY,
    AFTER_NO_RUN,
    AFTER_BUSY,
];

/// A call that is cut short: of a claim the frames of its reel with it; the entries of its script, and how many of these were
/// carried out.
pub struct Cut<'a> {
    pub call: &'a Call,
    pub load: u64,
    pub entries: usize,
    pub moment: usize,
}

/// The entries of a claim of a clear place, and of a branch-out of the root; and after how many of these the children are linked,
/// if the store has come through: the barrier is the next entry.
const CLEAR: usize = 2;
const BRANCH_OUT: usize = 15;
const LINKED: usize = 12;

/// A claim cut short: the frames of its reel, entries, moment, and the nodes that Has then tells.
type CutShort = (u64, usize, usize, u64);

#[derive(Default)]
pub struct Paths {
    gone: BTreeMap<(Rule, Far, Met), u64>,
    reels: BTreeMap<(Rule, &'static str), u64>,
    /// Claims cut short at the 64th of a reel that never had more, and at the 65th that branches the root out; with what Has then
    /// tells.
    cuts: BTreeMap<CutShort, u64>,
}

impl Paths {
    /// A Has on a single image.
    pub fn called(&mut self, call: &Call, words: &[u64]) {
        let way = Way::of(call, words, Fault::None);
        let ended = way.refusal.map_or(true, |refusal| refusal.answer == 4 && !BAD_TABLES.contains(&refusal));
        if let Some(rule) = Rule::of(words).filter(|_| ended) {
            self.gone(rule, &way, call.frame);
        }
    }

    /// A lookup that is answered, or refused for a malformed node.
    pub fn gone(&mut self, rule: Rule, way: &Way, frame: u64) {
        let far = match way.path.len() {
            0 => Far::None,
            1 => Far::One,
            2 => Far::Two,
            3..=31 => Far::Some,
            32 => Far::All,
            _ => Far::More,
        };
        let met = match way.found(frame) {
            _ if way.refusal.is_some() => Met::Malformed,
            None => Met::Absent,
            Some(found) if found < way.nodes() => Met::Above,
            Some(_) => Met::AtEnd,
        };
        *self.gone.entry((rule, far, met)).or_default() += 1;
    }

    /// A Has that is answered in a history, with the number that it tells.
    pub fn told(&mut self, rule: Rule, reel: u64, nodes: u64, table: &Table, loads: &Loads) {
        let [held, claimed, filled] = load(table, reel);
        let now = held + claimed + filled;
        let kind = match loads.of(reel).map(|load| load.most) {
            _ if now > BRIM && nodes == 1 => TOO_FEW,
            None if nodes == 1 => FOUND_LONE,
            None if now <= BRIM => FOUND_MORE,
            None => FOUND_MANY,
            Some(most) if most > BRIM && now > BRIM => MORE_NOW,
            Some(most) if most > BRIM && nodes > 1 => MORE_BEFORE,
            Some(most) if most > BRIM => CUT_BEFORE,
            Some(BRIM) if now < BRIM => BRIM_BEFORE,
            Some(BRIM) if claimed > 0 => BRIM_CLAIMED,
            Some(BRIM) if filled > 0 => BRIM_FILLED,
            Some(BRIM) => BRIM_HELD,
            Some(_) => FEWER,
        };
        self.reel(rule, kind);
        if let Some(load) = loads.of(reel).filter(|load| load.most <= BRIM) {
            [(load.cut, CUT_OPEN), (load.anew, ANEW)].iter().filter(|kind| kind.0).for_each(|kind| self.reel(rule, kind.1));
        }
    }

    /// The same, just after a recovery.
    pub fn recovered(&mut self, rule: Rule) {
        self.reel(rule, RECOVERED);
    }

    pub fn reel(&mut self, rule: Rule, kind: &'static str) {
        *self.reels.entry((rule, kind)).or_default() += 1;
    }

    /// A call cut short, and the number that Has tells after the recovery; `lone` if it has to be 1.
    pub fn cut(&mut self, cut: &Cut, nodes: u64, lone: bool) {
        let answered = cut.call.function == Function::Claim && cut.entries > 0;
        if answered && (cut.load == BRIM && lone || cut.load == BRIM + 1 && cut.entries == BRANCH_OUT) {
            *self.cuts.entry((cut.load, cut.entries, cut.moment, nodes)).or_default() += 1;
        }
    }

    pub fn calls_missed(&self) -> Vec<String> {
        let of_each = |rule: Rule| GONE.iter().chain(&STOPPED).map(move |&(far, met)| (rule, far, met));
        let all: Vec<_> = RULES.iter().flat_map(|&rule| of_each(rule)).collect();
        missed(&all, &self.gone, |key| format!("has on {}: {:?}, {:?}", named(key.0), key.1, key.2))
    }

    pub fn histories_missed(&self) -> Vec<String> {
        let gone: BTreeMap<_, _> = self.gone.iter().map(|(key, &count)| ((key.1, key.2), count)).collect();
        let mut lines = missed(&GONE, &gone, |key| format!("has in a history: {:?}, {:?}", key.0, key.1));
        let all: Vec<_> = RULES.iter().flat_map(|&rule| REELS.map(|kind| (rule, kind))).collect();
        let name = |key: &(Rule, &str)| format!("has in a history on {}: {}", named(key.0), key.1);
        lines.extend(missed(&all, &self.reels, name));
        let last = (0..=CLEAR).map(|moment| (BRIM, CLEAR, moment, 1));
        let unlinked = (0..=LINKED).map(|moment| (BRIM + 1, BRANCH_OUT, moment, 1));
        let linked = (LINKED..=BRANCH_OUT).map(|moment| (BRIM + 1, BRANCH_OUT, moment, 2));
        let all: Vec<_> = last.chain(unlinked).chain(linked).collect();
        let name = |&(load, entries, moment, nodes): &CutShort| {
            format!("claim {} of a reel cut after {} of {} entries, then {} nodes", load, moment, entries, nodes)
        };
        lines.extend(missed(&all, &self.cuts, name));
        lines
    }

    pub fn print(&self) {
        let cuts: u64 = self.cuts.values().sum();
        let lone = |kind: &str| self.reels.iter().filter(|(key, _)| key.1 == kind).map(|(_, count)| count).sum::<u64>();
        let brim = lone(BRIM_HELD) + lone(BRIM_CLAIMED) + lone(BRIM_FILLED);
        println!("{} lookups in reels of 64 frames, {} recoveries of a 64th or 65th claim cut short", brim, cuts);
    }
}
