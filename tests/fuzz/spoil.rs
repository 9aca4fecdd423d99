//! Deliberate faults in the library's place: after its call the answer, the count or one word of what it was lent is another, to
//! see that the comparison looks there.
use crate::model::call::{Call, Function, Function::*, Handed, Lent};
use crate::model::image::*;
use crate::model::node::{with_byte, FINGERPRINTS, FRAMES, LOCATE, NEXT, SET};
use crate::model::rule::*;
use crate::subject::Subject;

pub type Change = fn(&Call, &mut Lent, &mut Handed);

/// What is changed after a function's call with this answer.
pub struct Spoil {
    function: Function,
    answer: u64,
    pub text: &'static str,
    change: Change,
}

pub const fn after(function: Function, answer: u64, text: &'static str, change: Change) -> Spoil {
    Spoil { function, answer, text, change }
}

/// Found by single calls, where every word is compared with the model's.
pub static OF_CALLS: [Spoil; 68] = [
    after(Retire, 13, "retire answers 5 for 13", |_, _, handed| handed.answer = 5),
    after(List, 14, "list hands back a count with 14", |_, _, handed| handed.count = 1),
    after(Commit, 0, "commit hands back two words more", |_, _, handed| handed.count += 2),
    after(Abandon, 0, "abandon's barrier has a value", |_, lent, _| lent.script[3] = 1),
    after(Fill, 0, "fill writes behind its script", |_, lent, _| lent.script[8] ^= 1),
    after(Open, 6, "open writes a script with 6", |_, lent, _| lent.script[49] ^= 1),
    after(Open, 0, "open marks the last node too", |_, lent, _| mark_last(lent)),
    after(Recover, 0, "recover leaves a spare bit in the map", |_, lent, _| spare_bit(lent)),
    after(Claim, 0, "claim writes another head's record", |call, lent, _| record(lent, (call.head + 1) % HEADS)[4] ^= 1),
    after(Claim, 13, "claim marks the last node with 13", |_, lent, _| mark_last(lent)),
    after(Claim, 13, "claim's head is claimed with 13", |call, lent, _| record(lent, call.head)[0] = 1),
    after(Claim, 0, "claim hands back a place left less", |_, _, handed| handed.left = handed.left.saturating_sub(1)),
    after(Claim, 0, "claim hands back its two counts the other way round", |_, _, handed| swap_counts(handed)),
    after(Claim, 1, "claim hands back places left with 1", |_, _, handed| handed.left = 1),
    after(Claim, 3, "claim hands back places left with 3", |_, _, handed| handed.left = 1),
    after(Claim, 13, "claim hands back places left with 13", |_, _, handed| handed.left = 1),
    after(Commit, 0, "commit leaves the frame in the record", |call, lent, _| record(lent, call.head)[4] = 1),
    after(Recover, 0, "recover stores to a frame", |_, lent, _| last_word(lent)),
    after(Recover, 4, "recover stores with 4", |_, lent, _| last_word(lent)),
    after(Format, 0, "format clears a reel number", |_, lent, _| lent.image[64] = 0),
    after(Has, 0, "has stores to the image", |_, lent, _| last_word(lent)),
    after(Retire, 0, "retire leaves a bit in the scratch map", |_, lent, _| lent.scratch[0] = 1),
    after(List, 3, "list clears the scratch map with 3", |_, lent, _| lent.scratch.fill(0)),
    after(List, 0, "list gives another frame", |_, lent, handed| another_frame(lent, handed.count)),
    after(List, 0, "list writes behind the frames", |_, lent, handed| behind_frames(lent, handed.count)),
    after(List, 0, "list writes outside of its buffer", |_, lent, _| lent.list.write_behind()),
    after(Format, 0, "format writes edition 1", |_, lent, _| lent.image[0] = FIRST_EDITION),
    after(Recover, 0, "recover makes edition 2 of edition 1", |_, lent, _| lent.image[0] = EDITION),
    after(Recover, 4, "recover takes the other edition's fingerprints", by_other_edition),
    after(Has, 0, "has finds by the other edition's fingerprint too", by_other_edition),
    after(Has, 2, "has takes edition 3", |_, lent, handed| handed.answer = if lent.image[0] == 3 { 5 } else { 2 }),
    after(Recover, 4, "recover takes fingerprints over our table beside an own one", over_our_table),
    after(Has, 0, "has finds by our table too beside an own one", over_our_table),
    after(Retire, 4, "retire leaves a bit in the scratch map with 4 for the table", |_, lent, _| scratch_bit(lent)),
    after(Recover, 4, "recover makes the heads idle with 4 for the table", |_, lent, _| clear_if_bad(lent)),
    after(Recover, 4, "recover mends word 3", |_, lent, _| lent.image[OWN_AT] &= 1),
    after(Claim, 4, "claim hands back places left with 4 for the table", |_, lent, handed| handed.left = bad(lent)),
    after(List, 4, "list hands back a count with 4 for the table", |_, lent, handed| handed.count = bad(lent)),
    after(Commit, 4, "commit makes its head idle with 4 for the table", |call, lent, _| idle_if_bad(call, lent)),
    after(Open, 4, "open marks the last node with 4 for the table", |_, lent, _| mark_last(lent)),
    after(Format, 16, "format clears the map with 16", |_, lent, _| lent.map.fill(0)),
    after(Format, 16, "format writes word 3 with 16", |_, lent, _| lent.image[OWN_AT] = 1),
    after(Format, 0, "format writes a word behind the table", |_, lent, _| lent.image[TABLE_AT + TABLE_WORDS] = 1),
    after(Format, 0, "format writes to the table that it is given", |_, lent, _| write_to_table(lent)),
    after(Claim, 2, "claim hands back places left with 2", |_, _, handed| handed.left = 1),
    after(Fill, 0, "fill folds the other edition's bytes", |call, lent, _| fold_as_other_edition(call, lent)),
    after(Has, 0, "has hands back a node more", |_, _, handed| handed.path_nodes += 1),
    after(Has, 0, "has hands back its two numbers the other way round", |_, _, handed| swap_numbers(handed)),
    after(Has, 1, "has hands back nodes with 1", |_, _, handed| handed.path_nodes = 1),
    after(Has, 2, "has hands back nodes with 2", |_, _, handed| handed.path_nodes = 1),
    after(Has, 4, "has hands back nodes with 4", |_, lent, handed| handed.path_nodes = 1 - bad(lent)),
    after(Has, 4, "has hands back nodes with 4 for the table", |_, lent, handed| handed.path_nodes = bad(lent)),
    after(Has, 5, "has hands back nodes with 5", |_, _, handed| handed.path_nodes = 1),
    after(Convert, 17, "convert answers 4 for 17", |_, _, handed| handed.answer = 4),
    after(Convert, 0, "convert stores to the image", |_, lent, _| last_word(lent)),
    after(Convert, 1, "convert stores to the second image with 1", |_, lent, _| last_of_copy(lent)),
    after(Convert, 2, "convert stores to the second image with 2", |_, lent, _| last_of_copy(lent)),
    after(Convert, 3, "convert stores to the second image with 3", |_, lent, _| last_of_copy(lent)),
    after(Convert, 4, "convert stores to the second image with 4", |_, lent, _| last_of_copy(lent)),
    after(Convert, 17, "convert stores to the second image with 17", |_, lent, _| last_of_copy(lent)),
    after(Convert, 0, "convert stores outside of the second image", |_, lent, _| lent.copy.write_behind()),
    after(Convert, 0, "convert leaves a bit in the scratch map", |_, lent, _| lent.scratch[0] = 1),
    after(Convert, 4, "convert leaves a bit in the scratch map with 4", |_, lent, _| lent.scratch[0] = 1),
    after(Convert, 17, "convert leaves a bit in the scratch map with 17", |_, lent, _| lent.scratch[0] = 1),
    after(Convert, 3, "convert clears the scratch map with 3", |_, lent, _| lent.scratch.fill(0)),
    after(Convert, 0, "convert marks the last node in the map", |_, lent, _| mark_last(lent)),
    after(Convert, 0, "convert makes the heads idle", |_, lent, _| lent.heads.fill(0)),
    after(Convert, 0, "convert exchanges two frames", |_, lent, _| exchange_frames(lent)),
];

/// Found by histories, held against the plain table alone.
pub static OF_HISTORIES: [Spoil; 52] = [
    after(Commit, 0, "commit answers 12 and is done", |_, _, handed| {
        *handed = Handed { answer: 12, count: 0, left: 0, path_nodes: 0 }
    }),
    after(Claim, 9, "claim hands back a count with 9", |_, _, handed| handed.count = 2),
    after(Claim, 0, "claim hands back a place left less", |_, _, handed| handed.left = handed.left.saturating_sub(1)),
    after(Claim, 8, "claim hands back places left with 8", |_, _, handed| handed.left = 1),
    after(Claim, 9, "claim hands back places left with 9", |_, _, handed| handed.left = 1),
    after(Claim, 13, "claim answers 8 for 13", |_, _, handed| handed.answer = 8),
    after(Claim, 13, "claim marks the last node with 13", |_, lent, _| mark_last(lent)),
    after(Has, 0, "has always says no", |_, _, handed| handed.count = 0),
    after(List, 0, "list counts a frame less", |_, _, handed| handed.count = handed.count.saturating_sub(1)),
    after(List, 0, "list gives another frame", |_, lent, handed| another_frame(lent, handed.count)),
    after(List, 0, "list writes outside of its buffer", |_, lent, _| lent.list.write_behind()),
    after(Commit, 0, "commit sets another bit too", |_, lent, _| lent.script[1] ^= 1 << 63),
    after(Remove, 0, "remove stores nothing", |_, lent, _| lent.script[1] = lent.image[lent.script[0] as usize]),
    after(Claim, 0, "a branch-out lacks its first barrier", |_, lent, handed| lose_barrier(lent, handed.count)),
    after(Open, 0, "open marks the last node too", |_, lent, _| mark_last(lent)),
    after(Claim, 0, "claim's record names another slot", |call, lent, _| record(lent, call.head)[1] ^= 1),
    after(Abandon, 0, "abandon leaves the frame in the record", |call, lent, _| record(lent, call.head)[4] = 1),
    after(Recover, 0, "recover leaves the last head claimed", |_, lent, _| record(lent, HEADS - 1)[0] = 1),
    after(Recover, 0, "recover leaves a locate bit", |_, lent, _| *node_word(lent, 0, LOCATE) |= 1 << 15),
    after(Recover, 0, "recover drops children that hold nothing", |_, lent, _| drop_children(lent)),
    after(Recover, 0, "recover loses a frame", |_, lent, _| *node_word(lent, 0, SET) &= !1),
    after(Recover, 0, "recover moves a frame to the last place", |_, lent, _| move_frame(lent)),
    after(Format, 0, "format leaves a root", |_, lent, _| lent.image[65] = 1),
    after(Format, 0, "format writes edition 1", |_, lent, _| lent.image[0] = FIRST_EDITION),
    after(Recover, 0, "recover makes edition 2 of edition 1", |_, lent, _| lent.image[0] = EDITION),
    after(Recover, 0, "recover refuses edition 1", |_, lent, handed| handed.answer = 2 * u64::from(is_first_edition(lent))),
    after(Format, 0, "format answers 16 for a good table", |_, lent, handed| handed.answer = 16 * is_own(lent)),
    after(Format, 16, "format clears a root with 16", |_, lent, _| lent.image[65] = 0),
    after(Format, 0, "format stores another entry", |_, lent, _| lent.image[TABLE_AT + 31] ^= is_own(lent)),
    after(Recover, 0, "recover gives an own table up", |_, lent, _| lent.image[OWN_AT] = 0),
    after(Has, 0, "has says no on an own table", |_, lent, handed| handed.count &= !is_own(lent)),
    after(Recover, 1, "recover makes the heads idle with 1", |_, lent, _| lent.heads.fill(0)),
    after(Recover, 3, "recover clears the map with 3", |_, lent, _| lent.map.fill(0)),
    after(Recover, 0, "recover of edition 1 loses a frame", |_, lent, _| lose_frame_of_edition_1(lent)),
    after(Has, 0, "has of edition 1 says no above 2^32", |call, lent, handed| handed.count &= !above_2_32(call, lent)),
    after(Fill, 0, "fill folds the other edition's bytes", |call, lent, _| fold_as_other_edition(call, lent)),
    after(Has, 0, "has hands back a node more", |_, _, handed| handed.path_nodes += 1),
    after(Has, 0, "has hands back a node more for a full root", |call, lent, handed| {
        handed.path_nodes += u64::from(is_full(call, lent));
    }),
    after(Has, 0, "has hands back its two numbers the other way round", |_, _, handed| swap_numbers(handed)),
    after(Has, 1, "has hands back nodes with 1", |_, _, handed| handed.path_nodes = 1),
    after(Has, 5, "has hands back nodes with 5", |_, _, handed| handed.path_nodes = 1),
    after(Convert, 17, "convert answers 0 for 17", |_, _, handed| handed.answer = 0),
    after(Convert, 0, "convert stores to the image", |_, lent, _| last_word(lent)),
    after(Convert, 1, "convert stores to the second image with 1", |_, lent, _| last_of_copy(lent)),
    after(Convert, 0, "convert stores outside of the second image", |_, lent, _| lent.copy.write_behind()),
    after(Convert, 0, "convert makes the heads idle", |_, lent, _| lent.heads.fill(0)),
    after(Convert, 0, "convert loses a frame", |_, lent, _| change_copy(lent, |root, _| lose_lowest(root))),
    after(Convert, 0, "convert loses a reel", |_, lent, _| lose_last_reel(lent)),
    after(Convert, 0, "convert exchanges two frames", |_, lent, _| exchange_frames(lent)),
    after(Convert, 0, "convert leaves a locate bit", |_, lent, _| change_copy(lent, |root, _| root[LOCATE as usize] |= 1 << 15)),
    after(Convert, 0, "convert counts conversions in word 5", |_, lent, _| change_copy(lent, |root, old| root[5] = old[5] + 1)),
    after(Convert, 0, "convert writes another fingerprint", |_, lent, _| {
        change_copy(lent, |root, _| root[FINGERPRINTS as usize] ^= 1)
    }),
];

impl Spoil {
    pub fn spoil(&self, call: &Call, lent: &mut Lent, handed: &mut Handed) {
        if call.function == self.function && handed.answer == self.answer {
            (self.change)(call, lent, handed);
        }
    }
}

fn is_first_edition(lent: &Lent) -> bool {
    lent.image[0] == FIRST_EDITION
}

/// 1 or 0.
fn is_own(lent: &Lent) -> u64 {
    u64::from(Rule::of(&lent.image) == Some(OWN))
}

pub fn bad(lent: &Lent) -> u64 {
    u64::from(is_bad(&lent.image))
}

/// The call once more as if these were edition and word 3, where it refused or did not find, and not for a bad table.
fn once_more(call: &Call, lent: &mut Lent, handed: &mut Handed, edition: u64, own: u64) {
    if handed.count == 0 && !is_bad(&lent.image) {
        let before = (lent.image[0], lent.image[OWN_AT]);
        (lent.image[0], lent.image[OWN_AT]) = (edition, own);
        *handed = Subject::Library.perform(call, lent, 0);
        (lent.image[0], lent.image[OWN_AT]) = before;
    }
}

fn by_other_edition(call: &Call, lent: &mut Lent, handed: &mut Handed) {
    once_more(call, lent, handed, other_edition(lent), 0);
}

fn over_our_table(call: &Call, lent: &mut Lent, handed: &mut Handed) {
    if is_own(lent) == 1 {
        once_more(call, lent, handed, EDITION, 0);
    }
}

fn other_edition(lent: &Lent) -> u64 {
    if is_first_edition(lent) {
        EDITION
    } else {
        FIRST_EDITION
    }
}

/// The third entry of a fill stores the fingerprint.
fn fold_as_other_edition(call: &Call, lent: &mut Lent) {
    let Head { place, frame, .. } = Head::read(&lent.heads, call.head);
    let rule = if is_first_edition(lent) { SECOND } else { FIRST };
    lent.script[5] = with_byte(lent.script[5], place % 8, rule.fingerprint(&lent.image, frame));
}

pub fn scratch_bit(lent: &mut Lent) {
    if bad(lent) == 1 {
        lent.scratch[0] = 1;
    }
}

fn clear_if_bad(lent: &mut Lent) {
    if bad(lent) == 1 {
        lent.heads.fill(0);
    }
}

fn idle_if_bad(call: &Call, lent: &mut Lent) {
    if bad(lent) == 1 && call.head < HEADS {
        record(lent, call.head).fill(0);
    }
}

fn write_to_table(lent: &mut Lent) {
    lent.table.iter_mut().for_each(|table| table.iter_mut().for_each(|entry| *entry ^= 1));
}

/// The lowest one of node 0.
fn lose_frame_of_edition_1(lent: &mut Lent) {
    if is_first_edition(lent) {
        for word in [LOCATE, SET] {
            let places = node_word(lent, 0, word);
            *places &= places.wrapping_sub(1);
        }
    }
}

fn above_2_32(call: &Call, lent: &Lent) -> u64 {
    u64::from(is_first_edition(lent) && call.frame >> 32 != 0)
}

fn swap_counts(handed: &mut Handed) {
    std::mem::swap(&mut handed.count, &mut handed.left);
}

fn swap_numbers(handed: &mut Handed) {
    std::mem::swap(&mut handed.count, &mut handed.path_nodes);
}

pub fn root_of(call: &Call, lent: &Lent) -> Option<u64> {
    let slots = (0..lent.image[1]).map(|slot| slot_index(slot) as usize);
    let slot = slots.rev().find(|&slot| lent.image[slot + 1] != 0 && lent.image[slot] == call.reel);
    slot.map(|slot| lent.image[slot + 1] - 1)
}

/// Is each of the 64 places of the reel's root taken, and has it no children?
fn is_full(call: &Call, lent: &mut Lent) -> bool {
    let root = root_of(call, lent);
    root.map_or(false, |root| *node_word(lent, root, LOCATE) == u64::MAX && *node_word(lent, root, NEXT) == 0)
}

pub fn mark_last(lent: &mut Lent) {
    let nodes = lent.image[2];
    mark_used(&mut lent.map, nodes - 1);
}

pub fn spare_bit(lent: &mut Lent) {
    let nodes = lent.image[2];
    if nodes % 64 != 0 {
        mark_used(&mut lent.map, nodes);
    }
}

/// The last place of the last node.
fn last_word(lent: &mut Lent) {
    let last = lent.image.len() - 1;
    lent.image[last] ^= 1;
}

fn last_of_copy(lent: &mut Lent) {
    if let Some(word) = lent.copy.last_mut() {
        *word ^= 1;
    }
}

/// The root of the first reel, as Convert has written it, beside what it was.
fn change_copy(lent: &mut Lent, change: fn(&mut [u64], &[u64])) {
    let mut roots = (0..lent.copy[1]).map(|slot| lent.copy[slot_index(slot) as usize + 1]);
    if let Some(root) = roots.find(|&root| root != 0) {
        let at = node_index(lent.copy[1], root - 1) as usize;
        change(&mut lent.copy[at..], &lent.image[at..]);
    }
}

/// The lowest frame of a node is no longer held.
fn lose_lowest(node: &mut [u64]) {
    for word in [LOCATE, SET] {
        let places = &mut node[word as usize];
        *places &= places.wrapping_sub(1);
    }
}

/// Of the last filled slot.
fn lose_last_reel(lent: &mut Lent) {
    let roots = (0..lent.copy[1]).map(|slot| slot_index(slot) as usize + 1);
    if let Some(root) = roots.rev().find(|&root| lent.copy[root] != 0) {
        lent.copy[root - 1..=root].fill(0);
    }
}

/// Those of places 0 and 1 of the first reel's root, with their fingerprints.
fn exchange_frames(lent: &mut Lent) {
    change_copy(lent, |root, _| {
        if root[SET as usize] & 3 == 3 {
            let prints = root[FINGERPRINTS as usize];
            root[FINGERPRINTS as usize] = with_byte(with_byte(prints, 0, prints >> 8 & 255), 1, prints & 255);
            root.swap(FRAMES as usize, FRAMES as usize + 1);
        }
    });
}

fn record(lent: &mut Lent, head: u64) -> &mut [u64] {
    &mut lent.heads[head as usize * HEAD_WORDS..][..HEAD_WORDS]
}

pub fn node_word(lent: &mut Lent, node: u64, word: u64) -> &mut u64 {
    let index = node_index(lent.image[1], node) + word;
    &mut lent.image[index as usize]
}

/// From place 0 to place 15 of node 0, with its fingerprint, if the one is held and the other is clear.
fn move_frame(lent: &mut Lent) {
    let root = node_index(lent.image[1], 0) as usize;
    let node = &mut lent.image[root..][..NODE_WORDS as usize];
    if node[SET as usize] & (1 | 1 << 15) == 1 {
        let print = node[FINGERPRINTS as usize] & 255;
        node[FINGERPRINTS as usize + 1] = with_byte(node[FINGERPRINTS as usize + 1], 7, print);
        node[FRAMES as usize + 15] = node[FRAMES as usize];
        [LOCATE, SET].iter().for_each(|&word| node[word as usize] ^= 1 | 1 << 15);
    }
}

/// The two children of node 0, if it is a root with such.
fn drop_children(lent: &mut Lent) {
    let first = *node_word(lent, 0, NEXT);
    let is_root = lent.image[65] == 1 && first != 0;
    if is_root && (first - 1..=first).all(|child| [NEXT, SET].iter().all(|&word| *node_word(lent, child, word) == 0)) {
        *node_word(lent, 0, NEXT) = 0;
        (first - 1..=first).for_each(|child| mark_free(&mut lent.map, child));
    }
}

fn another_frame(lent: &mut Lent, count: u64) {
    if count > 0 {
        lent.list[count as usize - 1] ^= 1 << 40;
    }
}

fn behind_frames(lent: &mut Lent, count: u64) {
    if let Some(word) = lent.list.get_mut(count as usize) {
        *word ^= 1;
    }
}

/// The barrier after the children's words becomes a store to word 63 of what it has. It is the last but four of the entries.
fn lose_barrier(lent: &mut Lent, used: u64) {
    if used > 8 {
        let store = [63, lent.image[63]];
        lent.script[used as usize - 10..][..2].copy_from_slice(&store);
    }
}
