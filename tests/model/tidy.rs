//! Tidy: of the first node whose children are all empty, the children are given back.
use super::call::{Call, Lent};
use super::ending::*;
use super::fault::Fault;
use super::image::*;
use super::node::*;
use super::operations::*;
use super::script::{self, Entry, BARRIER};
use super::tree::Reached;
use std::collections::HashSet;

/// A node of a reel's tree that has children, and these.
pub struct Group<'a> {
    pub parent: Node<'a>,
    pub level: u64,
    pub children: Vec<Node<'a>>,
}

/// The words of a child that have to be 0.
pub const EMPTY: [u64; 3] = [LOCATE, SET, NEXT];

fn is_bare(node: &Node) -> bool {
    let unread = match node.image.fault {
        Fault::LocateUnread | Fault::ClaimsTidied => Some(LOCATE),
        Fault::SetUnread => Some(SET),
        Fault::NextUnread => Some(NEXT),
        _ => None,
    };
    EMPTY.iter().all(|&word| node.word(word) == 0 || Some(word) == unread)
}

impl<'a> Group<'a> {
    /// Of a node that a walk reaches, if it has children.
    pub fn of(reached: &Reached<'a>) -> Option<Group<'a>> {
        let (parent, level) = (reached.node, reached.steps.len() as u64);
        let (next, image) = (parent.word(NEXT), parent.image);
        let count = match image.fault {
            Fault::LeafTidied if next == 0 => return Some(Group { parent, level, children: Vec::new() }),
            Fault::ChildsFanout => children(level + 1),
            Fault::TwoTidied => children(level).min(2),
            _ => children(level),
        };
        let first = next.checked_sub(1)?;
        let numbers = (first..first + count).filter(|&number| number < image.nodes);
        Some(Group { parent, level, children: numbers.map(|number| Node::of(image, number)).collect() })
    }

    /// Have all of the children both bitmaps 0 and next 0?
    pub fn is_empty(&self) -> bool {
        let mut bare = self.children.iter().map(is_bare);
        match self.parent.image.fault {
            Fault::FirstChildTested => bare.next() == Some(true),
            Fault::LastChildTested => bare.last() == Some(true),
            Fault::OneChildTested => bare.any(|bare| bare),
            Fault::ParentTested => self.parent.word(SET) == 0 && bare.all(|bare| bare),
            _ => bare.all(|bare| bare),
        }
    }

    fn ending(&self) -> Ending {
        match self.level {
            0 => TIDIED_ROOT,
            1 | 2 => TIDIED_2,
            30 => TIDIED_LAST,
            _ => TIDIED_4,
        }
    }

    /// The word that links the children, and what is stored there.
    pub fn store(&self) -> Entry {
        let parent = self.parent;
        match parent.image.fault {
            Fault::ChildStored => (self.children[0].at(NEXT), 0),
            Fault::LocateStored => (parent.at(LOCATE), 0),
            Fault::LinkKept => (parent.at(NEXT), parent.word(NEXT)),
            Fault::OneStored => (parent.at(NEXT), 1),
            _ => (parent.at(NEXT), 0),
        }
    }

    /// The nodes that become free.
    pub fn freed(&self) -> Vec<u64> {
        let mut numbers: Vec<u64> = self.children.iter().map(|child| child.number).collect();
        let image = self.parent.image;
        match image.fault {
            Fault::ParentFreed => numbers = vec![self.parent.number],
            Fault::ParentFreedToo => numbers.push(self.parent.number),
            Fault::FirstChildKept => drop(numbers.remove(0)),
            Fault::LastChildKept => drop(numbers.pop()),
            Fault::NodeBehindFreed => numbers.push(numbers[0] + numbers.len() as u64),
            Fault::FreedFromNext => numbers.iter_mut().for_each(|number| *number += 1),
            Fault::GroupKept => numbers.clear(),
            _ => (),
        }
        numbers.retain(|&number| number < image.nodes);
        numbers
    }
}

/// The first empty group in the order of List: a node, then each child's subtree in turn. By a fault it is another, or all.
fn chosen<'a>(walk: &[Reached<'a>]) -> Vec<Group<'a>> {
    let mut empty = walk.iter().filter_map(Group::of).filter(Group::is_empty);
    match walk.first().map_or(Fault::None, |root| root.node.image.fault) {
        Fault::LastGroup => empty.last().into_iter().collect(),
        Fault::LevelOrder => empty.min_by_key(|group| group.level).into_iter().collect(),
        Fault::AllGroups => empty.take(SCRIPT_STORES).collect(),
        _ => empty.next().into_iter().collect(),
    }
}

/// As many as a script of 50 words holds with a barrier.
const SCRIPT_STORES: usize = script::SCRIPT_WORDS / 2 - 1;

/// The reel's tree as far as it is well formed, and refusal 4 as in List.
fn walked<'a>(image: Image<'a>, slot: u64) -> (Vec<Reached<'a>>, Result<(), Ending>) {
    let mut walk = Vec::new();
    let whole = image.walk_from(image.root(slot) - 1, Vec::new(), &mut HashSet::new(), &mut walk);
    (walk, whole)
}

/// What Tidy is to give back in the reel of this slot, if no head is at work there.
pub fn due(image: Image<'_>, slot: u64) -> Option<Group<'_>> {
    let (walk, whole) = walked(image, slot);
    whole.ok().and_then(|()| chosen(&walk).pop())
}

/// The groups that are given back: one. Refusals 5, 13 as in Remove, 4 as in List, 18.
fn find<'a>(call: &Call, image: Image<'a>, heads: &[u64]) -> Result<Vec<Group<'a>>, Ending> {
    if image.fault == Fault::BusyBeforeReel {
        check_busy(heads, image.slot_of(call.reel).unwrap_or(0), image.fault)?;
    }
    let slot = check_reel(call, image)?;
    let busy = check_busy(heads, slot, image.fault);
    let (walk, whole) = walked(image, slot);
    let groups = chosen(&walk);
    let some = check(!groups.is_empty(), if walk.len() == 1 { NO_CHILDREN } else { NO_GROUP });
    match image.fault {
        Fault::BusyTidied | Fault::ClaimsTidied => whole.and(some),
        Fault::TreeBeforeBusy => whole.and(busy).and(some),
        Fault::GroupBeforeBusy => whole.and(some).and(busy),
        Fault::NoneBeforeTree => busy.and(some).and(whole),
        Fault::TreeCutShort => busy.and(some.or(whole.and(some))),
        _ => busy.and(whole).and(some),
    }?;
    Ok(groups)
}

pub fn tidy(call: &Call, lent: &mut Lent, fault: Fault) -> Ended {
    let image = check_image(&lent.image, fault)?;
    check_map(&lent.map, image.nodes)?;
    check_scratch(&lent.scratch, image.nodes)?;
    check_script(&lent.script)?;
    let found = find(call, image, &lent.heads);
    let answer = found.as_ref().err().map_or(0, |refusal| refusal.answer);
    if (fault, answer) != (Fault::ScratchLeftFor13, 13) {
        lent.scratch.fill(0);
    }
    if let (Fault::TidyMarksLeft, 0) | (Fault::TidyMarksLeftFor18, 18) = (fault, answer) {
        let (walk, _) = walked(image, check_reel(call, image)?);
        walk.iter().for_each(|reached| mark_used(&mut lent.scratch, reached.node.number));
    }
    if (fault, answer) == (Fault::RootTidied, 18) {
        return tidy_root(image, check_reel(call, image)?, &mut lent.map, &mut lent.script);
    }
    let groups = found?;
    let mut entries: Vec<Entry> = groups.iter().map(Group::store).collect();
    if fault != Fault::NoTidyBarrier {
        entries.push(BARRIER);
    }
    for node in groups.iter().flat_map(Group::freed) {
        if fault == Fault::MarksTurned && !is_used(&lent.map, node) {
            mark_used(&mut lent.map, node);
        } else {
            mark_free(&mut lent.map, node);
        }
    }
    Ok((groups[0].ending(), script::write(&mut lent.script, &entries)))
}

/// A fault: a root that is empty and has no children is given back.
fn tidy_root(image: Image, slot: u64, map: &mut [u64], script: &mut [u64]) -> Ended {
    let root = Node::of(image, image.root(slot) - 1);
    check(is_bare(&root), NO_GROUP)?;
    mark_free(map, root.number);
    Ok((TIDIED_ROOT, script::write(script, &[(slot_index(slot) + 1, 0), BARRIER])))
}
