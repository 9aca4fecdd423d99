//! What conversions have met: words that are to go, claims, roots of each size, the last level; refusals that come before others;
//! crashes; and histories that go on with the copy.
use crate::coverage::{missed, named, Claims};
use crate::goals::*;
use crate::model::call::{Call, Function, Lent};
use crate::model::ending::*;
use crate::model::fault::Fault;
use crate::model::image::*;
use crate::model::node::*;
use crate::model::operations;
use crate::model::rule::*;
use crate::model::tree::{self, Reached};
use std::collections::{BTreeMap, BTreeSet, HashSet};

const HEADER_JUNK: &str = "words 3 to 63 that are not 0";
const EMPTY_JUNK: &str = "an empty slot with a reel number";
const NO_REEL_THERE: &str = "no filled slot";
const UNREACHED_JUNK: &str = "a node that isn't reached and isn't 0";
const LAST_REACHED: &str = "the last of more nodes than a map word has bits reached";
const UNREAD_JUNK: &str = "words 5 to 7 that are not 0";
const STALE_FRAME: &str = "a frame word of a place not held";
const STALE_PRINT: &str = "a fingerprint of a place not held";
const CLAIMED: &str = "a place claimed";
const FILLED: &str = "a place filled with a frame that is not held";
const NOT_LOCATED: &str = "a place held and not located";
const SAME_PRINT: &str = "a frame with the same fingerprint in both editions";
const OTHER_PRINT: &str = "a frame with another fingerprint";
const PLACES_WITH: [&str; 7] = [NOT_LOCATED, SAME_PRINT, OTHER_PRINT, STALE_FRAME, STALE_PRINT, CLAIMED, FILLED];
const ROOTS: [&str; 3] = ["a root of size 16", "a root of size 32", "a root of size 64"];
const AT_LAST_LEVEL: &str = "level 31";

const KINDS: [&str; 17] = [
    HEADER_JUNK,
    EMPTY_JUNK,
    NO_REEL_THERE,
    UNREACHED_JUNK,
    LAST_REACHED,
    UNREAD_JUNK,
    STALE_FRAME,
    STALE_PRINT,
    CLAIMED,
    FILLED,
    NOT_LOCATED,
    SAME_PRINT,
    OTHER_PRINT,
    ROOTS[0],
    ROOTS[1],
    ROOTS[2],
    AT_LAST_LEVEL,
];

/// What is converted.
const CONVERTED: [Rule; 2] = [FIRST, SECOND];

/// A refusal, and the answer but for that.
const SEQUENCE: [(u64, u64); 12] =
    [(1, 2), (1, 3), (1, 4), (1, 17), (1, 0), (2, 3), (2, 4), (2, 17), (2, 0), (3, 4), (3, 17), (3, 0)];

const NO_CLAIM: &str = "no claim open";
const A_CLAIM: &str = "a claim open";
const ALL_CLAIMS: &str = "a claim of every head open";
const TOGETHER: &str = "several claims in one tree";
const CRASHES: [&str; 4] = [NO_CLAIM, A_CLAIM, ALL_CLAIMS, TOGETHER];
const MOVES: [&str; 8] = [PLAIN, REFUSED, CUT, REFUSED_AND_CUT, ON_FRAMES, ON_NO_FRAMES, NO_CLAIM, A_CLAIM];

#[derive(Default)]
pub struct Conversions {
    /// Of answered calls on single images, by what was there.
    met: BTreeMap<(Rule, &'static str), u64>,
    sequence: BTreeMap<(u64, u64), u64>,
    /// In histories, on a book that goes by this rule: of answered ones, cut short; and such as the book went on with.
    crashes: BTreeMap<(Rule, &'static str), u64>,
    moves: BTreeMap<(Rule, &'static str), u64>,
    /// What was answered in a history on a copy.
    on_copies: BTreeMap<(Function, Rule), u64>,
}

/// Is a word in this range not 0?
fn junk(words: &[u64], from: u64, count: u64) -> bool {
    words[from as usize..][..count as usize].iter().any(|&word| word != 0)
}

/// The kinds that are there.
fn those(kinds: &[(bool, &'static str)]) -> Vec<&'static str> {
    kinds.iter().filter(|(there, _)| *there).map(|&(_, kind)| kind).collect()
}

/// What a sound image has that a conversion meets.
fn kinds(image: Image) -> BTreeSet<&'static str> {
    let (mut kinds, mut reached) = (BTreeSet::new(), HashSet::new());
    for slot in image.filled_slots() {
        let walk = image.walk(image.root(slot), &mut reached).unwrap_or_default();
        let held: HashSet<u64> = tree::frames(&walk).into_iter().collect();
        walk.iter().for_each(|node| kinds.extend(kinds_of_node(node, &held)));
    }
    let is_stale = |node: u64| !reached.contains(&node) && junk(image.words, image.node_index(node), NODE_WORDS);
    kinds.extend(those(&[
        (junk(image.words, 3, HEADER_WORDS - 3), HEADER_JUNK),
        ((0..image.slots).any(|slot| !image.filled(slot) && image.reel(slot) != 0), EMPTY_JUNK),
        (reached.is_empty(), NO_REEL_THERE),
        ((0..image.nodes).any(is_stale), UNREACHED_JUNK),
        (image.nodes > 64 && reached.contains(&(image.nodes - 1)), LAST_REACHED),
    ]));
    kinds
}

fn kinds_of_node(reached: &Reached, held: &HashSet<u64>) -> Vec<&'static str> {
    let (node, level) = (reached.node, reached.steps.len() as u64);
    let roots = SIZES.into_iter().zip(ROOTS).filter(|&(size, _)| level == 0 && node.word(SIZE_AT) == size);
    let mut kinds: Vec<_> = roots.map(|(_, kind)| kind).collect();
    let unread = junk(node.image.words, node.at(SIZE_AT + 1), FINGERPRINTS - SIZE_AT - 1);
    kinds.extend(those(&[(level == LAST_LEVEL, AT_LAST_LEVEL), (unread, UNREAD_JUNK)]));
    let places = (0..PLACES).map(|place| kinds_of_place(reached, place, held));
    let seen = places.fold([false; 7], |seen, place| std::array::from_fn(|kind| seen[kind] || place[kind]));
    kinds.extend(PLACES_WITH.into_iter().zip(seen).filter(|&(_, seen)| seen).map(|(kind, _)| kind));
    kinds
}

/// Which of `PLACES_WITH` it is.
fn kinds_of_place(reached: &Reached, place: u64, held: &HashSet<u64>) -> [bool; 7] {
    let (node, frame) = (reached.node, reached.node.frame(place));
    let [set, located] = [SET, LOCATE].map(|word| node.word(word) >> place & 1 == 1);
    if set {
        let same = CONVERTED.iter().all(|&rule| node.has_fingerprint(place, rule));
        return [!located, same, !same, false, false, false, false];
    }
    let on_path = || (0..).zip(&reached.steps).all(|(level, &step)| child(level, frame) == step);
    let filled = located && on_path() && node.has_right_fingerprint(place) && !held.contains(&frame);
    [false, false, false, frame != 0, node.fingerprint(place) != 0, located && !filled, filled]
}

impl Conversions {
    /// An answered call, on an image with these words.
    pub fn met(&mut self, words: &[u64]) {
        let image = Image::of(words);
        for kind in kinds(image) {
            *self.met.entry((image.rule(), kind)).or_default() += 1;
        }
    }

    /// A call that is refused so for what it is lent: what it would be answered with if that were right.
    pub fn refused(&mut self, call: &Call, lent: &Lent, ending: Ending) {
        let editions: &[u64] = if ending.answer == 2 { &[FIRST_EDITION, EDITION] } else { &[lent.image[0]] };
        for &edition in editions {
            let mut right = lent.clone();
            right.image[0] = edition;
            match ending.answer {
                1 => right.copy.resize(lent.image.len(), || 0),
                3 => right.scratch.resize(map_words(lent.image[2]) as usize, || 0),
                _ => (),
            }
            let answer = operations::perform(call, &mut right, Fault::None).ending.answer;
            *self.sequence.entry((ending.answer, answer)).or_default() += 1;
        }
    }

    pub fn crash(&mut self, rule: Rule, claims: Claims) {
        let kinds = those(&[
            (claims.all == 0, NO_CLAIM),
            (claims.all > 0, A_CLAIM),
            (claims.all == HEADS, ALL_CLAIMS),
            (claims.in_one_tree > 1, TOGETHER),
        ]);
        for kind in kinds {
            *self.crashes.entry((rule, kind)).or_default() += 1;
        }
    }

    /// A history goes on with the copy of a book that went by this rule.
    pub fn moved(&mut self, rule: Rule, attempts: &'static str, frames: bool, claims: u64) {
        let frames = if frames { ON_FRAMES } else { ON_NO_FRAMES };
        for kind in [attempts, frames, if claims == 0 { NO_CLAIM } else { A_CLAIM }] {
            *self.moves.entry((rule, kind)).or_default() += 1;
        }
    }

    /// A call that is answered in a history, on a copy of this rule.
    pub fn on_copy(&mut self, function: Function, rule: Rule) {
        *self.on_copies.entry((function, rule)).or_default() += 1;
    }

    pub fn print(&self) {
        let by =
            |rule: Rule| self.moves.iter().filter(|(key, _)| *key == &(rule, ON_FRAMES)).map(|(_, count)| count).sum::<u64>();
        println!(
            "{} histories go on with edition 2 of an image of edition 1, {} the other way, with frames",
            by(FIRST),
            by(SECOND)
        );
    }

    pub fn calls_missed(&self) -> Vec<String> {
        let name = |key: &(Rule, &str)| format!("convert of {} with {}", named(key.0), key.1);
        let mut lines = missed(&each(&KINDS), &self.met, name);
        let name = |key: &(u64, u64)| format!("convert refused {}, but for that {}", key.0, key.1);
        lines.extend(missed(&SEQUENCE, &self.sequence, name));
        lines
    }

    pub fn histories_missed(&self) -> Vec<String> {
        let name = |key: &(Rule, &str)| format!("crash in convert of {}, {}", named(key.0), key.1);
        let mut lines = missed(&each(&CRASHES), &self.crashes, name);
        let name = |key: &(Rule, &str)| format!("history that goes on with the copy of {}: {}", named(key.0), key.1);
        lines.extend(missed(&each(&MOVES), &self.moves, name));
        let functions = Function::ALL.iter().filter(|function| !matches!(function, Function::Apply | Function::Translate));
        let all: Vec<_> = functions.flat_map(|&function| CONVERTED.map(|rule| (function, rule))).collect();
        let name = |key: &(Function, Rule)| format!("{} answered on a copy of {}", key.0.name(), named(key.1));
        lines.extend(missed(&all, &self.on_copies, name));
        lines
    }
}

fn each(kinds: &[&'static str]) -> Vec<(Rule, &'static str)> {
    CONVERTED.iter().flat_map(|&rule| kinds.iter().map(move |&kind| (rule, kind))).collect()
}
