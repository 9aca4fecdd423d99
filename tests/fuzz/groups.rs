//! What Tidy has met: groups of children that are empty, and such as are not by one word of one child; where they are in the
//! tree, in the pool and in the map; refusals that come before others. In histories what was given back, and the claims that were
//! refused 8 before and made again after.
use crate::coverage::missed;
use crate::model::call::{Call, Lent};
use crate::model::ending::*;
use crate::model::fault::Fault;
use crate::model::image::*;
use crate::model::node::*;
use crate::model::operations;
use crate::model::tidy::{Group, EMPTY};
use crate::model::tree::{self, Reached};
use std::collections::{BTreeMap, HashSet};

/// Which of a group's children is not empty.
#[derive(Clone, Copy, PartialEq, Eq, PartialOrd, Ord, Debug)]
enum Child {
    First,
    Middle,
    Last,
}

const CHILDREN: [Child; 3] = [Child::First, Child::Middle, Child::Last];

/// The answer; and of a group that is not empty, though all words but one are 0, the child and the word.
type Near = (u64, Child, u64);

const ALONE: &str = "the only empty group";
const BEFORE_HIGHER: &str = "a group before one that is nearer to the root";
const BEFORE_OTHERS: &str = "a group before others, as far from the root or further";
const HOLDING: &str = "a group whose parent holds frames";
const BARE_PARENT: &str = "a group whose parent holds none";
const NO_FRAME: &str = "a group in a reel without a frame";
const AT_END: &str = "a group at the end of the pool";
const TWO_WORDS: &str = "a group in two words of the map";
const UNMARKED: &str = "a group with a child that is free in the map";
const BARE_ROOT: &str = "18 for a bare root";
const CLAIMED_ROOT: &str = "18 for a root with nothing but claims";
const HOLDING_ROOT: &str = "18 for a root that holds frames";

const KINDS: [&str; 12] = [
    ALONE,
    BEFORE_HIGHER,
    BEFORE_OTHERS,
    HOLDING,
    BARE_PARENT,
    NO_FRAME,
    AT_END,
    TWO_WORDS,
    UNMARKED,
    BARE_ROOT,
    CLAIMED_ROOT,
    HOLDING_ROOT,
];

/// A refusal, and the answer but for that; of 4 for the tree, that of one who gives the first empty group back as soon as it is
/// found.
const SEQUENCE: [(u64, u64); 5] = [(13, 0), (13, 4), (13, 18), (4, 0), (4, 4)];

pub const FRAMES_LEFT: &str = "a group given back in a reel that holds frames";
pub const NO_FRAMES_LEFT: &str = "a group given back in a reel that holds none";
pub const OF_FOUR: &str = "a group of four given back";
pub const NESTED: &str = "a group given back whose parent is then in an empty one";
pub const CUT_CLAIM: &str = "a group given back that a claim cut short has left";
pub const LONE_AGAIN: &str = "a root without children again, after more than 64 frames";
pub const ROOM: &str = "a claim refused 8, then answered with the nodes given back";
pub const ROOM_JOINED: &str = "a claim refused 8, then answered with some of them and others";
pub const OTHER_REEL: &str = "a claim refused 8, then answered with nodes of another reel";
pub const NO_ROOM: &str = "a claim refused 8 before and after a group is given back";
pub const NOTHING: &str = "a claim refused 8 before and after an 18";

const OF_HISTORIES: [&str; 11] =
    [FRAMES_LEFT, NO_FRAMES_LEFT, OF_FOUR, NESTED, CUT_CLAIM, LONE_AGAIN, ROOM, ROOM_JOINED, OTHER_REEL, NO_ROOM, NOTHING];

#[derive(Default)]
pub struct Groups {
    met: BTreeMap<&'static str, u64>,
    near: BTreeMap<Near, u64>,
    sequence: BTreeMap<(u64, u64), u64>,
    histories: BTreeMap<&'static str, u64>,
}

/// The child and the word, if one word alone of all children is not 0.
fn near(group: &Group) -> Option<(Child, u64)> {
    let words = |index: usize| EMPTY.map(|word| (index, word));
    let all = (0..group.children.len()).flat_map(words);
    let not_0: Vec<_> = all.filter(|&(index, word)| group.children[index].word(word) != 0).collect();
    match not_0[..] {
        [(0, word)] => Some((Child::First, word)),
        [(index, word)] if index + 1 == group.children.len() => Some((Child::Last, word)),
        [(_, word)] => Some((Child::Middle, word)),
        _ => None,
    }
}

impl Groups {
    /// A call on a single image, with what it is about to be lent.
    pub fn called(&mut self, call: &Call, lent: &Lent, ending: Ending) {
        match ending.answer {
            0 | 18 => self.answered(call, lent, ending.answer),
            13 => self.instead(call, lent, 13, Fault::BusyTidied),
            4 if !BAD_TABLES.contains(&ending) => self.instead(call, lent, 4, Fault::TreeCutShort),
            _ => (),
        }
    }

    fn instead(&mut self, call: &Call, lent: &Lent, refusal: u64, fault: Fault) {
        let answer = operations::perform(call, &mut lent.clone(), fault).handed.answer;
        *self.sequence.entry((refusal, answer)).or_default() += 1;
    }

    fn answered(&mut self, call: &Call, lent: &Lent, answer: u64) {
        let image = Image::of(&lent.image);
        let root = image.slot_of(call.reel).map_or(0, |slot| image.root(slot));
        let walk = image.walk(root, &mut HashSet::new()).unwrap_or_default();
        let groups: Vec<Group> = walk.iter().filter_map(Group::of).collect();
        let first = groups.iter().position(Group::is_empty).unwrap_or(groups.len());
        for (child, word) in groups[..first].iter().filter_map(near) {
            *self.near.entry((answer, child, word)).or_default() += 1;
        }
        let kinds = if first < groups.len() { given(&walk, &groups[first..], &lent.map) } else { kept(&walk) };
        for kind in kinds {
            *self.met.entry(kind).or_default() += 1;
        }
    }

    pub fn history(&mut self, kind: &'static str) {
        *self.histories.entry(kind).or_default() += 1;
    }

    pub fn print(&self) {
        let count = |kinds: &[&str]| kinds.iter().filter_map(|kind| self.histories.get(kind)).sum::<u64>();
        let (given, cut) = (count(&[FRAMES_LEFT, NO_FRAMES_LEFT]), count(&[CUT_CLAIM]));
        println!("{} groups given back in histories, {} of them left by a claim cut short", given, cut);
        let (answered, refused) = (count(&[ROOM, ROOM_JOINED]), count(&[NO_ROOM, NOTHING]));
        println!("{} claims refused 8 and answered after tidy, {} refused 8 again", answered, refused);
    }

    pub fn calls_missed(&self) -> Vec<String> {
        let mut lines = missed(&KINDS, &self.met, |kind| format!("tidy on {}", kind));
        let words = |answer: u64| CHILDREN.iter().flat_map(move |&child| EMPTY.map(|word| (answer, child, word)));
        let all: Vec<Near> = [0, 18].into_iter().flat_map(words).collect();
        let name = |&(answer, child, word): &Near| format!("tidy {} past word {} alone of the {:?} child", answer, word, child);
        lines.extend(missed(&all, &self.near, name));
        lines.extend(missed(&SEQUENCE, &self.sequence, |key| format!("tidy refused {}, but for that {}", key.0, key.1)));
        lines
    }

    pub fn histories_missed(&self) -> Vec<String> {
        missed(&OF_HISTORIES, &self.histories, |kind| kind.to_string())
    }
}

/// What the first group is, and those behind it that are empty too.
fn given(walk: &[Reached], groups: &[Group], map: &[u64]) -> Vec<&'static str> {
    let (group, image) = (&groups[0], groups[0].parent.image);
    let (first, last) = (group.children[0].number, group.children[group.children.len() - 1].number);
    let others: Vec<&Group> = groups[1..].iter().filter(|other| other.is_empty()).collect();
    let place = match others[..] {
        [] => ALONE,
        _ if others.iter().any(|other| other.level < group.level) => BEFORE_HIGHER,
        _ => BEFORE_OTHERS,
    };
    let parent = if group.parent.word(SET) == 0 { BARE_PARENT } else { HOLDING };
    let more = [
        (tree::frames(walk).is_empty(), NO_FRAME),
        (last + 1 == image.nodes, AT_END),
        (first / 64 != last / 64, TWO_WORDS),
        (group.children.iter().any(|child| !is_used(map, child.number)), UNMARKED),
    ];
    let more = more.iter().filter(|(there, _)| *there).map(|&(_, kind)| kind);
    [place, parent].into_iter().chain(more).collect()
}

/// What a root without children is, where nothing is given back.
fn kept(walk: &[Reached]) -> Vec<&'static str> {
    match walk {
        [root] if root.node.word(SET) != 0 => vec![HOLDING_ROOT],
        [root] if root.node.word(LOCATE) != 0 => vec![CLAIMED_ROOT],
        [_] => vec![BARE_ROOT],
        _ => Vec::new(),
    }
}
