//! A reel's tree: the path of a frame, the lookup, the walk over all nodes, and what a sound image is.
use super::ending::*;
use super::fault::Fault;
use super::image::Image;
use super::node::*;
use super::rule::Rule;
use std::collections::HashSet;

/// A node that the walk reaches, with the child taken at each level to it.
pub struct Reached<'a> {
    pub node: Node<'a>,
    pub steps: Vec<u64>,
}

impl<'a> Image<'a> {
    /// The child to which a path goes on from this level. Faults are made here; what is sound goes by the child itself.
    pub fn child(&self, level: u64, frame: u64) -> u64 {
        match self.fault {
            Fault::RemainderBy2 if level == 30 => child(level, frame) % 2,
            Fault::HalfDivisor if level == 17 => child(level, frame << 1),
            _ => child(level, frame),
        }
    }

    /// The nodes on a frame's path, the root first. Refusal 4 if one is malformed.
    pub fn path(&self, root: u64, frame: u64) -> Result<Vec<Node<'a>>, Ending> {
        let mut path = Vec::new();
        self.descend(root, frame, &mut path)?;
        Ok(path)
    }

    /// The same, node by node: those above a malformed one are there when it is met.
    pub fn descend(&self, root: u64, frame: u64, path: &mut Vec<Node<'a>>) -> Result<(), Ending> {
        path.push(self.node(root - 1, 0)?);
        loop {
            let level = path.len() as u64 - 1;
            let next = path[path.len() - 1].word(NEXT);
            if next == 0 {
                return Ok(());
            }
            path.push(self.node(next - 1 + self.child(level, frame), level + 1)?);
        }
    }

    /// The nodes of a root's tree: each before its children, these rising. Refusal 4 if one is malformed or among those seen.
    pub fn walk(&self, root: u64, seen: &mut HashSet<u64>) -> Result<Vec<Reached<'a>>, Ending> {
        let mut reached = Vec::new();
        self.walk_from(root - 1, Vec::new(), seen, &mut reached)?;
        Ok(reached)
    }

    /// The same from a node on, node by node: those before a malformed one are there when it is met.
    pub fn walk_from(
        &self,
        number: u64,
        steps: Vec<u64>,
        seen: &mut HashSet<u64>,
        reached: &mut Vec<Reached<'a>>,
    ) -> Result<(), Ending> {
        let level = steps.len() as u64;
        let node = self.node(number, level)?;
        if !seen.insert(number) {
            return Err(REACHED_TWICE);
        }
        reached.push(Reached { node, steps: steps.clone() });
        let next = node.word(NEXT);
        let mut order: Vec<u64> = if next == 0 { Vec::new() } else { (0..children(level)).collect() };
        if self.fault == Fault::ChildrenFalling {
            order.reverse();
        }
        for step in order {
            let mut below = steps.clone();
            below.push(step);
            self.walk_from(next - 1 + step, below, seen, reached)?;
        }
        Ok(())
    }

    /// The numbers of all nodes reached from the filled slots. Refusal 4 unless the image is sound.
    pub fn sound(&self) -> Result<Vec<u64>, Ending> {
        self.check_table()?;
        let mut numbers = Vec::new();
        let (mut seen, mut reels, mut frames) = (HashSet::new(), HashSet::new(), HashSet::new());
        for slot in self.filled_slots() {
            if !reels.insert(self.reel(slot)) {
                return Err(REEL_TWICE);
            }
            if self.fault != Fault::FrameInTwoReels {
                frames.clear();
            }
            let walk = self.walk(self.root(slot), &mut seen)?;
            // Growing by and by takes longer than all else here.
            frames.reserve(walk.iter().map(|reached| reached.node.word(SET).count_ones() as usize).sum());
            for reached in walk {
                check_frames(&reached, &mut frames)?;
                numbers.push(reached.node.number);
            }
        }
        Ok(numbers)
    }
}

/// Refusal 4 unless every held frame is on its path, with its fingerprint, and not held in the reel before.
fn check_frames(reached: &Reached, frames: &mut HashSet<u64>) -> Result<(), Ending> {
    let rule = reached.node.image.rule();
    for place in reached.node.held() {
        let frame = reached.node.frame(place);
        if !(0..).zip(&reached.steps).all(|(level, &step)| child(level, frame) == step) {
            return Err(OFF_PATH);
        }
        let right = match reached.node.image.fault {
            Fault::RecoverFoldsFour => reached.node.has_fingerprint(place, Rule { bytes: 4, ..rule }),
            Fault::RecoverOverOurs => reached.node.has_fingerprint(place, Rule { own: false, ..rule }),
            _ => reached.node.has_right_fingerprint(place),
        };
        if !right {
            return Err(if reached.node.has_other_fingerprint(place) { OTHER_FINGERPRINT } else { FINGERPRINT });
        }
        if !frames.insert(frame) {
            return Err(HELD_TWICE);
        }
    }
    Ok(())
}

/// The node on the path and the place where the lookup finds the frame: the first from the root, and there the lowest.
pub fn lookup<'a>(path: &[Node<'a>], frame: u64) -> Option<(Node<'a>, u64)> {
    path.iter().find_map(|node| node.places_of(frame).next().map(|place| (*node, place)))
}

/// Is the frame held on the path with another rule's fingerprint, by which no lookup finds it?
pub fn held_by_other_rule(path: &[Node], frame: u64) -> bool {
    let is_there = |node: &Node, place: u64| node.frame(place) == frame && node.has_other_fingerprint(place);
    path.iter().any(|node| node.held().any(|place| is_there(node, place)))
}

/// Is one held there that has its low four bytes?
pub fn held_by_lower_half(path: &[Node], frame: u64) -> bool {
    path.iter().any(|node| node.held().any(|place| same_lower_half(node.frame(place), frame)))
}

/// The first node from the root with a clear locate bit below its size, and the lowest such place.
pub fn first_clear<'a>(path: &[Node<'a>]) -> Option<(Node<'a>, u64)> {
    path.iter().find_map(|node| node.clear_place().map(|place| (*node, place)))
}

/// The frames that a walk comes by, in its sequence.
pub fn frames(walk: &[Reached]) -> Vec<u64> {
    walk.iter().flat_map(|reached| reached.node.held().map(move |place| reached.node.frame(place))).collect()
}
