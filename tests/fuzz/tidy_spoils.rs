//! Deliberate faults of Tidy in the library's place.
use crate::model::call::{Call, Function::*, Handed, Lent};
use crate::model::image::*;
use crate::model::node::NEXT;
use crate::spoil::*;

/// Found by single calls, where every word is compared with the model's.
pub static OF_CALLS: [Spoil; 22] = [
    after(Tidy, 18, "tidy answers 4 for 18", |_, _, handed| handed.answer = 4),
    after(Tidy, 13, "tidy answers 5 for 13", |_, _, handed| handed.answer = 5),
    after(Tidy, 5, "tidy answers 13 for 5", |_, _, handed| handed.answer = 13),
    after(Tidy, 0, "tidy hands back two words more", |_, _, handed| handed.count += 2),
    after(Tidy, 18, "tidy hands back a count with 18", |_, _, handed| handed.count = 4),
    after(Tidy, 0, "tidy's barrier has a value", |_, lent, _| lent.script[3] = 1),
    after(Tidy, 0, "tidy writes behind its script", |_, lent, _| lent.script[4] ^= 1),
    after(Tidy, 13, "tidy writes a script with 13", |_, lent, _| lent.script[0] ^= 1),
    after(Tidy, 18, "tidy writes a script with 18", |_, lent, _| lent.script[0] ^= 1),
    after(Tidy, 0, "tidy stores to the image", |_, lent, _| store_at_once(lent)),
    after(Tidy, 0, "tidy makes the heads idle", |_, lent, _| lent.heads.fill(0)),
    after(Tidy, 0, "tidy marks the last node in the map", |_, lent, _| mark_last(lent)),
    after(Tidy, 0, "tidy marks a spare bit of the map", |_, lent, _| spare_bit(lent)),
    after(Tidy, 18, "tidy clears the map with 18", |_, lent, _| lent.map.fill(0)),
    after(Tidy, 4, "tidy clears the map with 4", |_, lent, _| lent.map.fill(0)),
    after(Tidy, 0, "tidy leaves a bit in the scratch map", |_, lent, _| lent.scratch[0] = 1),
    after(Tidy, 4, "tidy leaves a bit in the scratch map with 4", |_, lent, _| lent.scratch[0] = 1 - bad(lent)),
    after(Tidy, 4, "tidy leaves a bit in the scratch map with 4 for the table", |_, lent, _| scratch_bit(lent)),
    after(Tidy, 5, "tidy leaves a bit in the scratch map with 5", |_, lent, _| lent.scratch[0] = 1),
    after(Tidy, 13, "tidy leaves a bit in the scratch map with 13", |_, lent, _| lent.scratch[0] = 1),
    after(Tidy, 18, "tidy leaves a bit in the scratch map with 18", |_, lent, _| lent.scratch[0] = 1),
    after(Tidy, 3, "tidy clears the scratch map with 3", |_, lent, _| lent.scratch.fill(0)),
];

/// Found by histories, held against the plain table and against the nodes.
pub static OF_HISTORIES: [Spoil; 14] = [
    after(Tidy, 0, "tidy answers 18 and is done", |_, _, handed| (handed.answer, handed.count) = (18, 0)),
    after(Tidy, 18, "tidy answers 0 for 18", |_, _, handed| handed.answer = 0),
    after(Tidy, 13, "tidy answers 18 for 13", |_, _, handed| handed.answer = 18),
    after(Tidy, 0, "tidy hands back two words", |_, _, handed| handed.count = 2),
    after(Tidy, 0, "tidy hands back no word", |_, _, handed| handed.count = 0),
    after(Tidy, 0, "tidy stores nothing", |_, lent, _| lent.script[1] = lent.image[lent.script[0] as usize]),
    after(Tidy, 0, "tidy stores to the image", |_, lent, _| store_at_once(lent)),
    after(Tidy, 0, "tidy makes the heads idle", |_, lent, _| lent.heads.fill(0)),
    after(Tidy, 0, "tidy marks the last node in the map", |_, lent, _| mark_last(lent)),
    after(Tidy, 0, "tidy does not free the first child", |_, lent, _| mark_first_child(lent)),
    after(Tidy, 18, "tidy clears the map with 18", |_, lent, _| lent.map.fill(0)),
    after(Tidy, 18, "tidy leaves a bit in the scratch map with 18", |_, lent, _| lent.scratch[0] = 1),
    after(Tidy, 3, "tidy clears the scratch map with 3", |_, lent, _| lent.scratch.fill(0)),
    after(Tidy, 18, "tidy gives the root's children back that hold frames", give_back),
];

/// What tidy's script stores.
fn store_at_once(lent: &mut Lent) {
    let next = lent.script[0] as usize;
    lent.image[next] = lent.script[1];
}

/// The first of the children that tidy gives back.
fn mark_first_child(lent: &mut Lent) {
    let next = lent.image[lent.script[0] as usize];
    mark_used(&mut lent.map, next - 1);
}

/// The root's next word is stored 0, whatever is below.
fn give_back(call: &Call, lent: &mut Lent, handed: &mut Handed) {
    let root = root_of(call, lent).unwrap_or(0);
    let first = *node_word(lent, root, NEXT);
    if first != 0 {
        lent.script[..4].copy_from_slice(&[node_index(lent.image[1], root) + NEXT, 0, u64::MAX, 0]);
        (first - 1..=first).for_each(|child| mark_free(&mut lent.map, child));
        (handed.answer, handed.count) = (0, 4);
    }
}
