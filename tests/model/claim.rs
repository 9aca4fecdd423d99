//! Claim: a place on the frame's path, by a clear place, a root of double size, or a branch-out.
use super::beside::{Beside, Uses};
use super::call::{Call, Lent};
use super::ending::*;
use super::fault::Fault;
use super::image::*;
use super::node::*;
use super::operations::*;
use super::script::{self, Entry, BARRIER};
use super::tree;

/// The place that a claim takes, the entries that make it, the node's locate word then, and the new nodes.
struct Taken<'a> {
    ending: Ending,
    node: Node<'a>,
    place: u64,
    entries: Vec<Entry>,
    locate: u64,
    new: Vec<u64>,
}

pub fn claim(call: &Call, lent: &mut Lent, fault: Fault) -> Ended {
    let image = check_image(&lent.image, fault)?;
    check_map(&lent.map, image.nodes)?;
    check_script(&lent.script)?;
    image.check_table_unless(Fault::TableAfterHead)?;
    if fault == Fault::ReelBeforeState {
        check(image.slot_of(call.reel).is_some() || call.head >= HEADS, NO_REEL)?;
    }
    check_head(&lent.heads, call.head, &[State::Idle], fault)?;
    image.check_table_if(Fault::TableAfterHead)?;
    let slot = image.slot_of(call.reel).ok_or(NO_REEL)?;
    if fault == Fault::AnyClaimBusy {
        check_busy(&lent.heads, slot, fault)?;
    }
    let path = image.path(image.root(slot), call.frame)?;
    check_full(&path, call.frame, fault)?;
    let taken = take(image, &path, call.frame, &lent.map);
    let (node, new) = taken.as_ref().map_or((None, &[][..]), |taken| (Some(taken.node.number), &taken.new[..]));
    let uses = Uses { node, new, last: path[path.len() - 1].number, nodes: image.nodes };
    let beside = Beside::of(&lent.heads, call.head, slot, fault);
    let busy = beside.check(call.frame, &uses);
    let held = check_held(&path, call.frame, fault).map_err(|held| if busy.is_err() { HELD_BUSY } else { held });
    let run = taken.as_ref().map(|taken| beside.ending(taken.ending, &uses)).map_err(|&none| beside.ending(none, &uses));
    let ending = match fault {
        Fault::BusyBeforeHeld => busy.and(held).and(run),
        Fault::NoRunBeforeBusy => held.and(run).and_then(|ending| busy.map(|_| ending)),
        _ => held.and(busy).and(run),
    }?;
    let mut taken = taken?;
    taken.entries.extend([(taken.node.at(LOCATE), taken.locate | 1 << taken.place), BARRIER]);
    if fault == Fault::EarlyChildren {
        branch_early(image, &mut taken, &lent.map);
    }
    for &number in &taken.new {
        mark_used(&mut lent.map, number);
    }
    write_head(&mut lent.heads, call.head, [1, slot, taken.node.number, taken.place, call.frame]);
    Ok((ending, script::write(&mut lent.script, &taken.entries)))
}

/// Refusal 4 where the path is full to level 31.
fn check_full(path: &[Node], frame: u64, fault: Fault) -> Result<(), Ending> {
    if fault == Fault::HeldBeforeFull {
        check_held(path, frame, fault)?;
    }
    let full = if fault == Fault::FullIsNoRun { TOO_FEW } else { LAST_FULL };
    check(tree::first_clear(path).is_some() || path.len() as u64 - 1 < LAST_LEVEL, full)
}

/// Refusal 9.
fn check_held(path: &[Node], frame: u64, fault: Fault) -> Result<(), Ending> {
    let looked = match path.iter().position(|node| node.clear_place().is_some()) {
        Some(node) if fault == Fault::FirstClearPlace => &path[..node + 1],
        _ => path,
    };
    check(tree::lookup(looked, frame).is_none(), HELD)
}

/// What a claim takes on a path. Refusal 8 if it needs a run of free nodes and there is none.
fn take<'a>(image: Image<'a>, path: &[Node<'a>], frame: u64, map: &[u64]) -> Result<Taken<'a>, Ending> {
    let last = path[path.len() - 1];
    match tree::first_clear(path) {
        Some((node, place)) => Ok(clear(node, place, path)),
        None if last.word(SIZE_AT) < 64 => Ok(doubled(last, image.fault)),
        None => branched(image, last, frame, map),
    }
}

/// The node that a claim would use, by what is lent. None where there is no such path or no run.
pub fn node_used(call: &Call, lent: &Lent) -> Option<u64> {
    let image = check_image(&lent.image, Fault::None).ok()?;
    check_map(&lent.map, image.nodes).ok()?;
    let path = image.path(image.root(image.slot_of(call.reel)?), call.frame).ok()?;
    check_full(&path, call.frame, Fault::None).ok()?;
    take(image, &path, call.frame, &lent.map).ok().map(|taken| taken.node.number)
}

fn clear<'a>(node: Node<'a>, place: u64, path: &[Node]) -> Taken<'a> {
    let ending = if node.number == path[0].number { CLEAR_ROOT } else { CLEAR_BELOW };
    Taken { ending, node, place, entries: Vec::new(), locate: node.word(LOCATE), new: Vec::new() }
}

fn doubled(root: Node, fault: Fault) -> Taken {
    let size = root.word(SIZE_AT);
    let mut entries = vec![(root.at(SIZE_AT), 2 * size), BARRIER];
    if fault == Fault::SizeUnordered {
        entries.pop();
    }
    let ending = if size == 16 { DOUBLED_32 } else { DOUBLED_64 };
    Taken { ending, node: root, place: size, entries, locate: root.word(LOCATE), new: Vec::new() }
}

/// Refusal 8 if there is no run of free nodes for the children.
fn branched<'a>(image: Image<'a>, parent: Node<'a>, frame: u64, map: &[u64]) -> Result<Taken<'a>, Ending> {
    let level = parent.word(LEVEL_AT);
    let (entries, new) = branch_out(image, parent, map)?;
    let ending = match level {
        0..=2 => BRANCHED_2,
        30 => BRANCHED_LAST,
        _ => BRANCHED_4,
    };
    let node = Node::of(image, new[image.child(level, frame) as usize]);
    Ok(Taken { ending, node, place: 0, entries, locate: 0, new })
}

/// The entries that give a node its children, and these.
fn branch_out(image: Image, parent: Node, map: &[u64]) -> Result<(Vec<Entry>, Vec<u64>), Ending> {
    let level = parent.word(LEVEL_AT);
    let count = children(level);
    let first = run(image, map, count)?;
    let new: Vec<u64> = (first..first + count).collect();
    let mut entries = Vec::new();
    for child in new.iter().map(|&number| Node::of(image, number)) {
        let words = [(NEXT, 0), (LOCATE, 0), (SET, 0), (LEVEL_AT, level + 1), (SIZE_AT, 64)];
        entries.extend(words.iter().map(|&(word, value)| (child.at(word), value)));
    }
    if image.fault != Fault::ChildrenUnordered {
        entries.push(BARRIER);
    }
    entries.extend([(parent.at(NEXT), first + 1), BARRIER]);
    Ok((entries, new))
}

/// A fault: the claim of a root's last place gives it children, if there is a run.
fn branch_early(image: Image, taken: &mut Taken, map: &[u64]) {
    let (root, full) = (taken.node, (taken.locate | 1 << taken.place) == u64::MAX);
    if full && root.word(LEVEL_AT) == 0 && root.word(NEXT) == 0 {
        if let Ok((entries, new)) = branch_out(image, root, map) {
            taken.entries.extend(entries);
            taken.new.extend(new);
        }
    }
}

/// The first of the lowest run of free nodes. Refusal 8 exactly if there is none.
fn run(image: Image, map: &[u64], count: u64) -> Result<u64, Ending> {
    let free = (0..image.nodes).filter(|&node| !is_used(map, node)).count() as u64;
    let lowest = free_run(map, image.nodes, count);
    let found = match image.fault {
        Fault::FreeNodesCounted if free >= count => lowest.or_else(|| free_run(map, image.nodes, 1)),
        Fault::RunInOneWord => lowest.filter(|first| first / 64 == (first + count - 1) / 64),
        Fault::RunPastPool => free_run(map, 64 * map.len() as u64, count),
        _ => lowest,
    };
    found.ok_or(if free >= count { NO_RUN } else { TOO_FEW })
}
