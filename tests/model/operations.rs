//! The fifteen functions: answer, count, script and every buffer at the end, over any contents, numbers and lengths.
//! Refusals come by `?`, in the specification's sequence, before anything is written.
use super::apply::apply;
use super::call::{Call, Function, Handed, Lent};
use super::claim::claim;
use super::convert::convert;
use super::ending::*;
use super::fault::Fault;
use super::format::format;
use super::image::*;
use super::left::left;
use super::node::*;
use super::path_nodes::path_nodes;
use super::rule::Rule;
use super::script::{self, Entry, BARRIER, SCRIPT_WORDS};
use super::tidy::tidy;
use super::translate::translate;
use super::tree::{self, Reached};
use std::collections::HashSet;

/// How a call ended, and what it handed back.
pub struct Outcome {
    pub ending: Ending,
    pub handed: Handed,
}

pub type Ended = Result<(Ending, u64), Ending>;

pub fn perform(call: &Call, lent: &mut Lent, fault: Fault) -> Outcome {
    let ended = match call.function {
        Function::Format => format(call, lent, fault),
        Function::Recover => recover(lent, fault),
        Function::Open => open(call, lent, fault),
        Function::Claim => claim(call, lent, fault),
        Function::Fill => fill(call, lent, fault),
        Function::Commit => commit(call, lent, fault),
        Function::Abandon => abandon(call, lent, fault),
        Function::Remove => remove(call, lent, fault),
        Function::Has => has(call, lent, fault),
        Function::List => list(call, lent, fault),
        Function::Retire => retire(call, lent, fault),
        Function::Tidy => tidy(call, lent, fault),
        Function::Convert => convert(lent, fault),
        Function::Apply => apply(lent, fault),
        Function::Translate => translate(call, lent, fault),
    };
    let (ending, count) = ended.unwrap_or_else(|refusal| (refusal, 0));
    let claimed = call.function == Function::Claim && ending.answer == 0;
    let left = if claimed { left(call.head, lent, count, fault) } else { 0 };
    let path_nodes = if call.function == Function::Has { path_nodes(call, &lent.image, fault) } else { 0 };
    Outcome { ending, handed: Handed { answer: ending.answer, count, left, path_nodes } }
}

/// Refusals 1 and 2.
pub fn check_image(words: &[u64], fault: Fault) -> Result<Image<'_>, Ending> {
    let image = Image::read(words, fault)?;
    check_edition(image.edition(), fault)?;
    image.check_table_if(Fault::TableBeforeBuffers)?;
    Ok(image)
}

/// Refusal 2, for an edition other than 1 and 2.
pub fn check_edition(edition: u64, fault: Fault) -> Result<(), Ending> {
    let known = match fault {
        Fault::Edition3Taken => (1..=3).contains(&edition),
        Fault::Edition1Refused => edition == EDITION,
        Fault::LowHalfOfEdition => [1, 2].contains(&(edition as u32)),
        _ => edition == FIRST_EDITION || edition == EDITION,
    };
    let refusal = match edition {
        0 => EDITION_0,
        3 => EDITION_3,
        _ => EDITION_ABOVE,
    };
    check(known, refusal)
}

pub fn check(holds: bool, refusal: Ending) -> Result<(), Ending> {
    if holds {
        Ok(())
    } else {
        Err(refusal)
    }
}

/// Refusal 3 for a pool map.
pub fn check_map(map: &[u64], nodes: u64) -> Result<(), Ending> {
    check(map.len() as u64 == map_words(nodes), MAP_LENGTH)
}

pub fn check_scratch(scratch: &[u64], nodes: u64) -> Result<(), Ending> {
    check(scratch.len() as u64 == map_words(nodes), SCRATCH_LENGTH)
}

pub fn check_script(script: &[u64]) -> Result<(), Ending> {
    check(script.len() >= SCRIPT_WORDS, SCRIPT_LENGTH)
}

/// Refusal 13 of Remove, Retire and Tidy: any head at work in the reel.
pub fn check_busy(heads: &[u64], slot: u64, fault: Fault) -> Result<(), Ending> {
    let idle = |head: u64| match fault {
        Fault::AnyStateBusy => heads[head as usize * HEAD_WORDS] == 0,
        _ => Head::read(heads, head).state == State::Idle,
    };
    check((0..HEADS).all(|head| idle(head) || Head::read(heads, head).slot != slot), BUSY)
}

/// Refusal 4 for the table, and 5: the reel's slot.
pub fn check_reel(call: &Call, image: Image) -> Result<u64, Ending> {
    image.check_table_unless(Fault::TableAfterReel)?;
    let slot = image.slot_of(call.reel).ok_or(NO_REEL)?;
    image.check_table_if(Fault::TableAfterReel)?;
    Ok(slot)
}

/// Refusals 11 and 12: the head's record, if its state is one of these.
pub fn check_head(heads: &[u64], head: u64, states: &[State], fault: Fault) -> Result<Head, Ending> {
    let count = if fault == Fault::LastHeadRefused { HEADS - 1 } else { HEADS };
    check(head < count, HEAD_NUMBER)?;
    let record = Head::read(heads, head);
    let refusal = match record.state {
        State::Idle => HEAD_IDLE,
        State::Claimed => HEAD_CLAIMED,
        State::Filled => HEAD_FILLED,
    };
    check(states.contains(&record.state), refusal)?;
    Ok(record)
}

/// Every record idle.
pub fn clear_heads(heads: &mut [u64], fault: Fault) {
    let count = if fault == Fault::LastRecordLeft { HEADS - 1 } else { HEADS };
    (0..count).for_each(|head| write_head(heads, head, [0; HEAD_WORDS]));
}

fn recover(lent: &mut Lent, fault: Fault) -> Ended {
    let image = check_image(&lent.image, fault)?;
    check_map(&lent.map, image.nodes)?;
    let sound = image.sound();
    let left = match fault {
        Fault::MapLeft => sound.is_err(),
        Fault::MapLeftForTable => image.check_table().is_err(),
        _ => false,
    };
    if !left {
        lent.map.fill(0);
    }
    let reached = sound?;
    let mut stores: Vec<Entry> = Vec::new();
    for &number in &reached {
        mark_used(&mut lent.map, number);
        let node = Node::of(image, number);
        let (from, to) = if fault == Fault::LocateTrusted { (LOCATE, SET) } else { (SET, LOCATE) };
        if node.word(from) != node.word(to) {
            stores.push((node.at(to), node.word(from)));
        }
    }
    match fault {
        Fault::ThreeMended => stores.truncate(3),
        Fault::OneMendedInReel => first_of_each_reel(image, &mut stores),
        _ => (),
    }
    if fault == Fault::RecoverWrites2 {
        stores.push((0, EDITION));
    }
    script::carry_out(&mut lent.image, &stores);
    clear_heads(&mut lent.heads, fault);
    Ok((if stores.is_empty() { LOCATE_EQUAL } else { LOCATE_SET }, 0))
}

/// A fault: in each tree the first store alone.
fn first_of_each_reel(image: Image, stores: &mut Vec<Entry>) {
    for slot in image.filled_slots() {
        let walk = image.walk(image.root(slot), &mut HashSet::new()).unwrap_or_default();
        let is_here = |store: &Entry| walk.iter().any(|reached| reached.node.at(LOCATE) == store.0);
        let first = stores.iter().copied().find(is_here);
        stores.retain(|store| !is_here(store) || Some(*store) == first);
    }
}

fn open(call: &Call, lent: &mut Lent, fault: Fault) -> Ended {
    let image = check_image(&lent.image, fault)?;
    check_map(&lent.map, image.nodes)?;
    check_script(&lent.script)?;
    image.check_table_unless(Fault::TableAfterOpen)?;
    let stale = fault == Fault::EmptySlotRead && (0..image.slots).any(|slot| image.reel(slot) == call.reel);
    check(image.slot_of(call.reel).is_none() && !stale, ALREADY_OPEN)?;
    image.check_table_if(Fault::TableAfterOpen)?;
    let slot = (0..image.slots).find(|&slot| !image.filled(slot)).ok_or(NO_SLOT)?;
    let number = free_run(&lent.map, image.nodes, 1).ok_or(NO_NODE)?;
    let node = Node::of(image, number);
    let mut entries: Vec<Entry> = [NEXT, LOCATE, SET, LEVEL_AT].iter().map(|&word| (node.at(word), 0)).collect();
    entries.push((node.at(SIZE_AT), 16));
    let (reel, root) = ((slot_index(slot), call.reel), (slot_index(slot) + 1, number + 1));
    entries.extend(match fault {
        Fault::RootUnordered => vec![reel, root, BARRIER],
        Fault::ReelUnordered => vec![BARRIER, reel, root, BARRIER],
        _ => vec![reel, BARRIER, root, BARRIER],
    });
    mark_used(&mut lent.map, number);
    if fault == Fault::SpareBitsCleared && image.nodes % 64 != 0 {
        lent.map[image.nodes as usize / 64] &= (1 << (image.nodes % 64)) - 1;
    }
    Ok((DONE, script::write(&mut lent.script, &entries)))
}

/// What Fill, Commit and Abandon have in common: refusals 1, 2, 3, 4 for the table, 11, 12 and 4, then the head's record and its
/// node.
fn claimed<'a>(call: &Call, lent: &'a Lent, states: &[State], fault: Fault) -> Result<(Head, Node<'a>), Ending> {
    let image = check_image(&lent.image, fault)?;
    check_script(&lent.script)?;
    image.check_table_unless(Fault::TableAfterHead)?;
    let head = check_head(&lent.heads, call.head, states, fault)?;
    image.check_table_if(Fault::TableAfterHead)?;
    check(head.node < image.nodes, HEAD_NODE)?;
    check(head.place < PLACES, HEAD_PLACE)?;
    Ok((head, Node::of(image, head.node)))
}

fn fill(call: &Call, lent: &mut Lent, fault: Fault) -> Ended {
    let (head, node) = claimed(call, lent, &[State::Claimed], fault)?;
    let at = FINGERPRINTS + head.place / 8;
    let kept = if fault == Fault::BytesLost { 0 } else { node.word(at) };
    let rule = match fault {
        Fault::FillFoldsEight => Rule { bytes: 8, ..node.image.rule() },
        Fault::FillOverOurs => Rule { own: false, ..node.image.rule() },
        _ => node.image.rule(),
    };
    let print = node.image.fingerprint_by(rule, head.frame);
    let prints = with_byte(kept, head.place % 8, print);
    let mut entries = vec![(node.at(FRAMES + head.place), head.frame), BARRIER, (node.at(at), prints), BARRIER];
    if fault == Fault::HeldFromFill {
        entries.extend([(node.at(SET), node.word(SET) | 1 << head.place), BARRIER]);
    }
    write_head(&mut lent.heads, call.head, [2, head.slot, head.node, head.place, head.frame]);
    Ok((DONE, script::write(&mut lent.script, &entries)))
}

fn commit(call: &Call, lent: &mut Lent, fault: Fault) -> Ended {
    let (head, node) = claimed(call, lent, &[State::Filled], fault)?;
    let mut entries = vec![(node.at(SET), node.word(SET) | 1 << head.place), BARRIER];
    if fault == Fault::NoLastBarrier {
        entries.pop();
    }
    write_head(&mut lent.heads, call.head, [0; HEAD_WORDS]);
    Ok((DONE, script::write(&mut lent.script, &entries)))
}

fn abandon(call: &Call, lent: &mut Lent, fault: Fault) -> Ended {
    let (head, node) = claimed(call, lent, &[State::Claimed, State::Filled], fault)?;
    let entries = [(node.at(LOCATE), node.word(LOCATE) & !(1 << head.place)), BARRIER];
    write_head(&mut lent.heads, call.head, [0; HEAD_WORDS]);
    let ending = if head.state == State::Claimed { ABANDONED_CLAIMED } else { ABANDONED_FILLED };
    Ok((ending, script::write(&mut lent.script, &entries)))
}

fn remove(call: &Call, lent: &mut Lent, fault: Fault) -> Ended {
    let image = check_image(&lent.image, fault)?;
    check_script(&lent.script)?;
    let slot = check_reel(call, image)?;
    check_busy(&lent.heads, slot, fault)?;
    let path = image.path(image.root(slot), call.frame)?;
    let found = match fault {
        Fault::LastPlaceRemoved => {
            path.iter().rev().find_map(|node| node.places_of(call.frame).last().map(|place| (*node, place)))
        }
        _ => tree::lookup(&path, call.frame),
    };
    let (node, place) = found.ok_or(NOT_HELD)?;
    let without = |word: u64| node.word(word) & !(1 << place);
    let locate = if fault == Fault::LocateLeft { node.word(LOCATE) } else { without(LOCATE) };
    let entries = [(node.at(SET), without(SET)), BARRIER, (node.at(LOCATE), locate), BARRIER];
    let ending = if node.number == path[0].number { REMOVED_ROOT } else { REMOVED_BELOW };
    Ok((ending, script::write(&mut lent.script, &entries)))
}

/// Has's refusals up to 5, then the image and the root of the reel in it.
pub fn looked_up<'a>(call: &Call, words: &'a [u64], fault: Fault) -> Result<(Image<'a>, u64), Ending> {
    let image = check_image(words, fault)?;
    let slot = check_reel(call, image)?;
    Ok((image, image.root(slot)))
}

fn has(call: &Call, lent: &mut Lent, fault: Fault) -> Ended {
    let (image, root) = looked_up(call, &lent.image, fault)?;
    let path = image.path(root, call.frame)?;
    Ok(match tree::lookup(&path, call.frame) {
        Some(_) => (HAS_YES, 1),
        None if tree::held_by_other_rule(&path, call.frame) => (HAS_OTHER, 0),
        None if tree::held_by_lower_half(&path, call.frame) => (HAS_LOWER, 0),
        None => (HAS_NO, 0),
    })
}

fn shape(walk: &[Reached]) -> Ending {
    if walk.len() > 1 {
        TREE_DEEP
    } else if tree::frames(walk).is_empty() {
        TREE_EMPTY
    } else {
        TREE_ROOT
    }
}

fn list(call: &Call, lent: &mut Lent, fault: Fault) -> Ended {
    let image = check_image(&lent.image, fault)?;
    check_scratch(&lent.scratch, image.nodes)?;
    let left = match fault {
        Fault::ScratchLeft => image.slot_of(call.reel).is_none(),
        Fault::ScratchLeftForTable => image.check_table().is_err(),
        _ => false,
    };
    if !left {
        lent.scratch.fill(0);
    }
    let slot = check_reel(call, image)?;
    let walk = image.walk(image.root(slot), &mut HashSet::new())?;
    let frames = tree::frames(&walk);
    check(frames.len() <= lent.list.len(), LIST_SHORT)?;
    lent.list[..frames.len()].copy_from_slice(&frames);
    Ok((shape(&walk), frames.len() as u64))
}

fn retire(call: &Call, lent: &mut Lent, fault: Fault) -> Ended {
    let image = check_image(&lent.image, fault)?;
    check_map(&lent.map, image.nodes)?;
    check_scratch(&lent.scratch, image.nodes)?;
    check_script(&lent.script)?;
    lent.scratch.fill(0);
    let slot = check_reel(call, image)?;
    check_busy(&lent.heads, slot, fault)?;
    let walk = image.walk(image.root(slot), &mut HashSet::new())?;
    let freed = if fault == Fault::ChildrenLeft { &walk[..1] } else { &walk[..] };
    for reached in freed {
        mark_free(&mut lent.map, reached.node.number);
    }
    Ok((shape(&walk), script::write(&mut lent.script, &[(slot_index(slot) + 1, 0), BARRIER])))
}
