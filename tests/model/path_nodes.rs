//! How far a lookup goes: the nodes on the frame's path.
use super::call::Call;
use super::ending::Ending;
use super::fault::Fault;
use super::image::Image;
use super::node::{Node, LAST_LEVEL};
use super::operations::looked_up;
use std::collections::HashSet;

/// The path that a Has of this call goes, down to its end or as far as the nodes are well formed; and the refusal, if it is
/// refused.
pub struct Way<'a> {
    pub path: Vec<Node<'a>>,
    pub refusal: Option<Ending>,
}

impl<'a> Way<'a> {
    pub fn of(call: &Call, words: &'a [u64], fault: Fault) -> Way<'a> {
        let mut path = Vec::new();
        let descended = looked_up(call, words, fault).and_then(|(image, root)| image.descend(root, call.frame, &mut path));
        Way { path, refusal: descended.err() }
    }

    /// The number of nodes on the path; 0 where the call is refused.
    pub fn nodes(&self) -> u64 {
        if self.refusal.is_some() {
            0
        } else {
            self.path.len() as u64
        }
    }

    /// The number of the first node from the root, itself being 1, that the frame is found in.
    pub fn found(&self, frame: u64) -> Option<u64> {
        let node = self.path.iter().position(|node| node.places_of(frame).next().is_some());
        node.map(|above| above as u64 + 1)
    }
}

/// What Has hands back: the number of nodes on the whole path, wherever on it the frame is found, if it is; 0 where Has is
/// refused.
pub fn path_nodes(call: &Call, words: &[u64], fault: Fault) -> u64 {
    let way = Way::of(call, words, fault);
    if way.refusal.is_some() {
        return if fault == Fault::SoundNodesTold { way.path.len() as u64 } else { 0 };
    }
    let nodes = way.nodes();
    match (fault, way.found(call.frame)) {
        (Fault::OneAlways, _) => 1,
        (Fault::LevelForNodes, _) => nodes - 1,
        (Fault::EndUncounted, _) => (nodes - 1).max(1),
        (Fault::ChildAsParent, _) => nodes - nodes / 2,
        (Fault::NoneForAbsent, None) => 0,
        (Fault::DownToPlace, Some(found)) => found,
        (Fault::PastTheEnd, _) => nodes + 1,
        (Fault::LastLevelUncounted, _) => nodes.min(LAST_LEVEL),
        (Fault::LongestPath, _) => steps_of_all(call, words).iter().max().map_or(nodes, |steps| steps + 1),
        (Fault::AllNodes, _) => steps_of_all(call, words).len() as u64,
        _ => nodes,
    }
}

/// How many steps down from the root each node of the reel is, by faults that look at all of them. None where they cannot.
fn steps_of_all(call: &Call, words: &[u64]) -> Vec<u64> {
    let walk = |(image, root): (Image, u64)| {
        let walk = image.walk(root, &mut HashSet::new()).unwrap_or_default();
        walk.iter().map(|reached| reached.steps.len() as u64).collect()
    };
    looked_up(call, words, Fault::None).map(walk).unwrap_or_default()
}
