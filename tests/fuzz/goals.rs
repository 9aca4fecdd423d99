//! What the fuzzing has to reach.
use crate::model::call::{Function, Function::*};
use crate::model::ending::*;
use crate::model::rule::*;

const LENGTHS: &[Ending] = &[TOO_SHORT, SLOTS, NODES, LENGTH];
const HEADER: &[Ending] = &[TOO_SHORT, SLOTS, NODES, LENGTH, EDITION_0, EDITION_3, EDITION_ABOVE];
const PATH: &[Ending] = &[OUTSIDE, LEVEL, SIZE, LOCATE_ABOVE, SET_ABOVE, NEXT_SMALL, NEXT_LAST, CHILDREN_OUTSIDE];
const UNSOUND: &[Ending] = &[REACHED_TWICE, REEL_TWICE, OFF_PATH, HELD_TWICE, FINGERPRINT, OTHER_FINGERPRINT];
const TAKEN: &[Ending] =
    &[CLEAR_ROOT, CLEAR_BELOW, DOUBLED_32, DOUBLED_64, BRANCHED_2, BRANCHED_4, BRANCHED_LAST, LAST_FULL, TOO_FEW, NO_RUN];
/// Of claims with other heads at work in the reel.
const TOGETHER: &[Ending] = &[
    CLEAR_BESIDE,
    DOUBLED_BESIDE,
    BRANCHED_BESIDE,
    BRANCHED_UNDER,
    NO_RUN_BESIDE,
    NO_RUN_UNDER,
    HELD_BUSY,
    BUSY_FRAME,
    BUSY_FRAME_NO_RUN,
    BUSY_NODE,
    BUSY_CHILD,
];
const TREES: &[Ending] = &[TREE_EMPTY, TREE_ROOT, TREE_DEEP, REACHED_TWICE];
const TIDIED: &[Ending] = &[TIDIED_ROOT, TIDIED_2, TIDIED_4, TIDIED_LAST, NO_CHILDREN, NO_GROUP, REACHED_TWICE];
const BY_HEAD: &[Ending] = &[SCRIPT_LENGTH, HEAD_NUMBER, HEAD_NODE, HEAD_PLACE];
const TABLES: &[Ending] = &[NO_TABLE, EMPTY_TABLE, GIVEN_TABLE, GIVEN_OURS];
const APPLIED: &[Ending] =
    &[SCRIPT_ODD, BARRIER_VALUE, STORE_OUTSIDE, STORES_NONE, STORES_HEADER, STORES, STORES_FLUSHES, FLUSHES_ALONE];
const TRANSLATED: &[Ending] =
    &[TRANSLATED_NONE, TRANSLATED_BARRIERS, TRANSLATED_LINE, TRANSLATED_LINES, TRANSLATED_AGAIN, TRANSLATED_WHOLE];
const UNTRANSLATED: &[Ending] = &[
    MODULE_SHORT,
    MODULE_SHORT_FOR_NONE,
    SCRIPT_ODD,
    SCRIPT_LONG,
    STORE_OUTSIDE,
    BARRIER_VALUE,
    HOLDS_FLUSH,
    NO_LAST_BARRIER,
    SEVERAL_WRONG,
];
pub const REFUSED_TABLES: [Ending; 4] = [TABLE_SHORT, TABLE_LONG, TABLE_LACKS_ONE, TABLE_LACKS];

/// Every way in which a call can end.
pub fn endings(function: Function) -> Vec<Ending> {
    let lists: &[&[Ending]] = match function {
        Format => &[TABLES, &REFUSED_TABLES, &[SLOTS, NODES, LENGTH, MAP_LENGTH]],
        Recover => &[HEADER, PATH, UNSOUND, &[MAP_LENGTH, LOCATE_EQUAL, LOCATE_SET]],
        Open => &[HEADER, &[MAP_LENGTH, SCRIPT_LENGTH, ALREADY_OPEN, NO_SLOT, NO_NODE, DONE]],
        Claim => {
            &[HEADER, PATH, TAKEN, TOGETHER, &[MAP_LENGTH, SCRIPT_LENGTH, HEAD_NUMBER, HEAD_CLAIMED, HEAD_FILLED, NO_REEL, HELD]]
        }
        Fill => &[HEADER, BY_HEAD, &[HEAD_IDLE, HEAD_FILLED, DONE]],
        Commit => &[HEADER, BY_HEAD, &[HEAD_IDLE, HEAD_CLAIMED, DONE]],
        Abandon => &[HEADER, BY_HEAD, &[HEAD_IDLE, ABANDONED_CLAIMED, ABANDONED_FILLED]],
        Remove => &[HEADER, PATH, &[SCRIPT_LENGTH, NO_REEL, BUSY, NOT_HELD, REMOVED_ROOT, REMOVED_BELOW]],
        Has => &[HEADER, PATH, &[NO_REEL, HAS_NO, HAS_OTHER, HAS_LOWER, HAS_YES]],
        List => &[HEADER, PATH, TREES, &[SCRATCH_LENGTH, NO_REEL, LIST_SHORT]],
        Retire => &[HEADER, PATH, TREES, &[MAP_LENGTH, SCRATCH_LENGTH, SCRIPT_LENGTH, NO_REEL, BUSY]],
        Tidy => &[HEADER, PATH, TIDIED, &[MAP_LENGTH, SCRATCH_LENGTH, SCRIPT_LENGTH, NO_REEL, BUSY]],
        Convert => &[HEADER, PATH, UNSOUND, &[COPY_SHORT, COPY_LONG, SCRATCH_LENGTH, OWN_TABLE, DONE]],
        Apply => &[LENGTHS, APPLIED],
        Translate => &[TRANSLATED, UNTRANSLATED],
    };
    let bad: &[Ending] = if matches!(function, Format | Apply | Translate) { &[] } else { &BAD_TABLES };
    [&lists.concat(), bad].concat()
}

const ANY: &[Option<Rule>] = &[None];
const EACH: &[Option<Rule>] = &[Some(FIRST), Some(SECOND), Some(OWN)];
const BUT_OWN: &[Option<Rule>] = &[Some(FIRST), Some(SECOND)];
const OWN_ALONE: &[Option<Rule>] = &[Some(OWN)];
const EACH_AND_NONE: &[Option<Rule>] = &[None, Some(FIRST), Some(SECOND), Some(OWN)];

/// The rules by which images go on which a call is to end so: each where it reads them, but that an own table is not converted;
/// also none where it writes and does not read them, or looks at them only later.
pub fn rules(function: Function, ending: Ending) -> &'static [Option<Rule>] {
    match (function, ending.answer) {
        (Format | Apply, 0) => EACH_AND_NONE,
        (Format | Apply | Translate, _) | (_, 1 | 2) => ANY,
        (_, 3) => EACH_AND_NONE,
        (Convert, 0) => BUT_OWN,
        (Convert, 17) => OWN_ALONE,
        _ if BAD_TABLES.contains(&ending) => ANY,
        _ => EACH,
    }
}

/// The answers that come in a history. 2 and 4 never do.
pub fn answers(function: Function) -> &'static [u64] {
    match function {
        Format => &[0, 1, 3, 16],
        Recover => &[0, 1, 3],
        Open => &[0, 1, 3, 6, 7, 8],
        Claim => &[0, 1, 3, 5, 8, 9, 11, 12, 13],
        Fill | Commit | Abandon => &[0, 1, 3, 11, 12],
        Remove => &[0, 1, 3, 5, 10, 13],
        Has => &[0, 1, 5],
        List => &[0, 1, 3, 5, 14],
        Retire => &[0, 1, 3, 5, 13],
        Tidy => &[0, 1, 3, 5, 13, 18],
        Convert => &[0, 1, 3, 17],
        Apply | Translate => &[],
    }
}

/// Those that come on a book that goes by this rule.
pub fn answers_by(function: Function, rule: Rule) -> impl Iterator<Item = u64> {
    let comes = move |answer: &u64| function != Convert || *answer != if rule.own { 0 } else { 17 };
    answers(function).iter().copied().filter(comes)
}

/// The answers that a call on an image with a bad table gives, or would give if its table were taken.
pub fn beside_bad_table(function: Function) -> Vec<u64> {
    match function {
        Apply => vec![0, 1, 3],
        Translate => Vec::new(),
        Format | Open => answers(function).to_vec(),
        _ => [answers(function), &[4]].concat(),
    }
}

/// What looks like a table where none is read.
pub const GOOD_IN_1: &str = "edition 1 with word 3 of 1 and a table";
pub const BAD_IN_1: &str = "edition 1 with what would be a bad table in edition 2";
pub const GOOD_IN_2: &str = "edition 2 with word 3 of 0 and a table";
pub const BAD_IN_2: &str = "edition 2 with word 3 of 0 and words 8 to 39 that are neither a table nor 0";
pub const UNREAD: [&str; 4] = [GOOD_IN_1, BAD_IN_1, GOOD_IN_2, BAD_IN_2];

/// Those that read the rule.
pub const READING: [Function; 12] = [Recover, Open, Claim, Fill, Commit, Abandon, Remove, Has, List, Retire, Tidy, Convert];

/// The numbers of entries that a function's scripts have. Without a script: Recover, Convert, and refusals.
pub fn scripts(function: Function) -> &'static [usize] {
    match function {
        Open => &[9, 0],
        Claim => &[2, 4, 15, 25, 0],
        Fill | Remove => &[4, 0],
        Commit | Abandon | Retire | Tidy => &[2, 0],
        Format | Recover | Has | List | Convert => &[0],
        Apply | Translate => &[],
    }
}

pub const BY_FORMAT: &str = "a format";
pub const BY_SECOND_FORMAT: &str = "a format, after one that was refused";
pub const ON_FRAMES: &str = "an image with frames held";
pub const ON_NO_FRAMES: &str = "an image without a frame";
pub const PLAIN: &str = "an image, the first attempt ends";
pub const REFUSED: &str = "an image, after a refused attempt";
pub const CUT: &str = "an image, after a cut attempt";
pub const REFUSED_AND_CUT: &str = "an image, after a refused and a cut attempt";

/// The attempts at a recovery, by what came before the one that ended.
pub fn attempts(refused: bool, cut: bool) -> &'static str {
    match (refused, cut) {
        (false, false) => PLAIN,
        (true, false) => REFUSED,
        (false, true) => CUT,
        (true, true) => REFUSED_AND_CUT,
    }
}

/// How a history starts. No format makes edition 1.
pub fn starts() -> Vec<(Rule, &'static str)> {
    let formats = [SECOND, OWN].iter().flat_map(|&rule| [BY_FORMAT, BY_SECOND_FORMAT].map(|start| (rule, start)));
    let images = [ON_FRAMES, ON_NO_FRAMES, PLAIN, REFUSED, CUT, REFUSED_AND_CUT];
    formats.chain(RULES.iter().flat_map(|&rule| images.map(|start| (rule, start)))).collect()
}

/// The functions that store, on power that may fail.
pub const STORING: [Function; 9] = [Recover, Open, Claim, Fill, Commit, Abandon, Remove, Retire, Tidy];

/// The entries of a branch-out of two and of one of four.
pub const BRANCH_OUTS: [usize; 2] = [15, 25];

pub const FRAME_TAKEN: &str = "13 for the frame";
pub const NODE_TAKEN: &str = "13 for the node";
pub const NO_NODES: &str = "8 beside another head";
pub const ANSWERED: &str = "answered beside another head";
pub const BESIDE: [&str; 4] = [FRAME_TAKEN, NODE_TAKEN, NO_NODES, ANSWERED];

pub const NONE_AT_LAST: &str = "no place, at the last one";
pub const NONE_BELOW: &str = "no place, at one below the last";
pub const ALL_ABOVE: &str = "all places above its own";
pub const SOME_ABOVE: &str = "some places above its own";
pub const NOT_AS_SET: &str = "a locate word that has other places than the set word";

/// What claims leave: on single images, in nodes of each size; in histories all but the last, since no two heads are at a node.
pub const LEFTS: [&str; 5] = [NONE_AT_LAST, NONE_BELOW, ALL_ABOVE, SOME_ABOVE, NOT_AS_SET];
pub const SIZES: [u64; 3] = [16, 32, 64];
