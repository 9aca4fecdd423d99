//! The ways in which a call can end: its answer, and the shape of the case, by which the fuzzing knows what it has reached.

#[derive(Clone, Copy, PartialEq, Eq, PartialOrd, Ord, Debug)]
pub struct Ending {
    pub answer: u64,
    pub shape: &'static str,
}

const fn ending(answer: u64, shape: &'static str) -> Ending {
    Ending { answer, shape }
}

pub const DONE: Ending = ending(0, "done");
pub const NO_TABLE: Ending = ending(0, "no table");
pub const EMPTY_TABLE: Ending = ending(0, "a table of length 0");
pub const GIVEN_TABLE: Ending = ending(0, "a table");
pub const GIVEN_OURS: Ending = ending(0, "a table that equals ours");
pub const LOCATE_EQUAL: Ending = ending(0, "no locate word differs");
pub const LOCATE_SET: Ending = ending(0, "locate words differ");
pub const CLEAR_ROOT: Ending = ending(0, "clear place in the root");
pub const CLEAR_BELOW: Ending = ending(0, "clear place below the root");
pub const DOUBLED_32: Ending = ending(0, "size 32");
pub const DOUBLED_64: Ending = ending(0, "size 64");
pub const BRANCHED_2: Ending = ending(0, "branch-out of 2");
pub const BRANCHED_4: Ending = ending(0, "branch-out of 4");
pub const BRANCHED_LAST: Ending = ending(0, "branch-out to level 31");
pub const CLEAR_BESIDE: Ending = ending(0, "clear place, another head in the reel");
pub const DOUBLED_BESIDE: Ending = ending(0, "doubled size, another head in the reel");
pub const BRANCHED_BESIDE: Ending = ending(0, "branch-out, another head in the reel");
pub const BRANCHED_UNDER: Ending = ending(0, "branch-out of a node that another head is at");
pub const ABANDONED_CLAIMED: Ending = ending(0, "claimed head");
pub const ABANDONED_FILLED: Ending = ending(0, "filled head");
pub const REMOVED_ROOT: Ending = ending(0, "in the root");
pub const REMOVED_BELOW: Ending = ending(0, "below the root");
pub const HAS_NO: Ending = ending(0, "no");
pub const HAS_OTHER: Ending = ending(0, "no, held with another rule's fingerprint");
pub const HAS_LOWER: Ending = ending(0, "no, one with its lower half is held");
pub const HAS_YES: Ending = ending(0, "yes");
pub const TREE_EMPTY: Ending = ending(0, "no frame");
pub const TREE_ROOT: Ending = ending(0, "frames in one node");
pub const TREE_DEEP: Ending = ending(0, "several nodes");
pub const TIDIED_ROOT: Ending = ending(0, "children of the root");
pub const TIDIED_2: Ending = ending(0, "two children below the root");
pub const TIDIED_4: Ending = ending(0, "four children");
pub const TIDIED_LAST: Ending = ending(0, "children of level 31");
pub const STORES_NONE: Ending = ending(0, "no store");
pub const STORES_HEADER: Ending = ending(0, "store to the header");
pub const STORES: Ending = ending(0, "stores");
pub const STORES_FLUSHES: Ending = ending(0, "stores and flushes");
pub const FLUSHES_ALONE: Ending = ending(0, "flushes and no store");
pub const TRANSLATED_NONE: Ending = ending(0, "no entry");
pub const TRANSLATED_BARRIERS: Ending = ending(0, "barriers alone");
pub const TRANSLATED_LINE: Ending = ending(0, "one line before each barrier");
pub const TRANSLATED_LINES: Ending = ending(0, "several lines before a barrier");
pub const TRANSLATED_AGAIN: Ending = ending(0, "a line of an earlier barrier again");
pub const TRANSLATED_WHOLE: Ending = ending(0, "24 lines before the barrier");

pub const TOO_SHORT: Ending = ending(1, "too short for its header");
pub const SLOTS: Ending = ending(1, "number of slots");
pub const NODES: Ending = ending(1, "number of nodes");
pub const LENGTH: Ending = ending(1, "length");
pub const COPY_SHORT: Ending = ending(1, "second image shorter");
pub const COPY_LONG: Ending = ending(1, "second image longer");
pub const EDITION_0: Ending = ending(2, "edition 0");
pub const EDITION_3: Ending = ending(2, "edition 3");
pub const EDITION_ABOVE: Ending = ending(2, "edition above 3");
pub const MAP_LENGTH: Ending = ending(3, "map's length");
pub const SCRATCH_LENGTH: Ending = ending(3, "scratch's length");
pub const SCRIPT_LENGTH: Ending = ending(3, "script too short");
pub const SCRIPT_ODD: Ending = ending(3, "script of odd length");
pub const BARRIER_VALUE: Ending = ending(3, "barrier with a value");
pub const STORE_OUTSIDE: Ending = ending(3, "store outside");
pub const MODULE_SHORT: Ending = ending(3, "module's buffer too short");
pub const MODULE_SHORT_FOR_NONE: Ending = ending(3, "module's buffer too short, and no entry");
pub const SCRIPT_LONG: Ending = ending(3, "script too long");
pub const HOLDS_FLUSH: Ending = ending(3, "a flush in the script");
pub const NO_LAST_BARRIER: Ending = ending(3, "no barrier at the end");
pub const SEVERAL_WRONG: Ending = ending(3, "several reasons");

pub const OWN_2: Ending = ending(4, "word 3 is 2");
pub const OWN_HIGH: Ending = ending(4, "word 3 is 0 or 1 but for higher bytes");
pub const OWN_ABOVE: Ending = ending(4, "word 3 is above 2");
pub const STORED_LACKS_ONE: Ending = ending(4, "own table lacks one byte");
pub const STORED_LACKS: Ending = ending(4, "own table lacks several bytes");
pub const OUTSIDE: Ending = ending(4, "node outside the pool");
pub const LEVEL: Ending = ending(4, "level is not the depth");
pub const SIZE: Ending = ending(4, "size not allowed");
pub const LOCATE_ABOVE: Ending = ending(4, "locate bit above the size");
pub const SET_ABOVE: Ending = ending(4, "set bit above the size");
pub const NEXT_SMALL: Ending = ending(4, "next below size 64");
pub const NEXT_LAST: Ending = ending(4, "next at level 31");
pub const CHILDREN_OUTSIDE: Ending = ending(4, "children past the pool");
pub const LAST_FULL: Ending = ending(4, "full to level 31");
pub const HEAD_NODE: Ending = ending(4, "head's node outside");
pub const HEAD_PLACE: Ending = ending(4, "head's place outside");
pub const REACHED_TWICE: Ending = ending(4, "node reached twice");
pub const REEL_TWICE: Ending = ending(4, "reel in two slots");
pub const OFF_PATH: Ending = ending(4, "frame off its path");
pub const HELD_TWICE: Ending = ending(4, "frame held twice");
pub const FINGERPRINT: Ending = ending(4, "wrong fingerprint");
pub const OTHER_FINGERPRINT: Ending = ending(4, "fingerprint of another rule");

pub const NO_REEL: Ending = ending(5, "no such reel");
pub const ALREADY_OPEN: Ending = ending(6, "reel already open");
pub const NO_SLOT: Ending = ending(7, "no empty slot");
pub const NO_NODE: Ending = ending(8, "no free node");
pub const TOO_FEW: Ending = ending(8, "too few free nodes");
pub const NO_RUN: Ending = ending(8, "free nodes but no run");
pub const NO_RUN_BESIDE: Ending = ending(8, "no run, another head in the reel");
pub const NO_RUN_UNDER: Ending = ending(8, "no run for a node that another head is at");
pub const HELD: Ending = ending(9, "frame held");
pub const HELD_BUSY: Ending = ending(9, "frame held, and another head about it or at the node");
pub const NOT_HELD: Ending = ending(10, "frame not held");
pub const HEAD_NUMBER: Ending = ending(11, "head number");
pub const HEAD_IDLE: Ending = ending(12, "head idle");
pub const HEAD_CLAIMED: Ending = ending(12, "head claimed");
pub const HEAD_FILLED: Ending = ending(12, "head filled");
pub const BUSY: Ending = ending(13, "reel busy");
pub const BUSY_FRAME: Ending = ending(13, "frame of another head");
pub const BUSY_FRAME_NO_RUN: Ending = ending(13, "frame of another head, and no run");
pub const BUSY_NODE: Ending = ending(13, "node of another head");
pub const BUSY_CHILD: Ending = ending(13, "new child that another head is at");
pub const LIST_SHORT: Ending = ending(14, "list short");
pub const TABLE_SHORT: Ending = ending(16, "table of fewer bytes");
pub const TABLE_LONG: Ending = ending(16, "table of more bytes");
pub const TABLE_LACKS_ONE: Ending = ending(16, "table lacks one byte");
pub const TABLE_LACKS: Ending = ending(16, "table lacks several bytes");
pub const OWN_TABLE: Ending = ending(17, "own table");
pub const NO_CHILDREN: Ending = ending(18, "no node has children");
pub const NO_GROUP: Ending = ending(18, "no group of children is empty");

/// Refusal 4 for word 3 or the stored table.
pub const BAD_TABLES: [Ending; 5] = [OWN_2, OWN_HIGH, OWN_ABOVE, STORED_LACKS_ONE, STORED_LACKS];
