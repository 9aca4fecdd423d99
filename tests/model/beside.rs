//! The other heads at work in the reel that a claim is for: which of them hinder it, and what becomes of it beside the others.
use super::ending::*;
use super::fault::Fault;
use super::image::*;
use super::operations::check;

/// Those that are claimed or filled and name the reel's slot.
pub struct Beside {
    heads: Vec<Head>,
    fault: Fault,
}

/// The node that a claim would use, that of the place it would take, or none if it finds no run; its new children; the last node
/// of its path; how many nodes there are.
pub struct Uses<'a> {
    pub node: Option<u64>,
    pub new: &'a [u64],
    pub last: u64,
    pub nodes: u64,
}

impl Beside {
    pub fn of(heads: &[u64], head: u64, slot: u64, fault: Fault) -> Beside {
        let at_work = |other: u64| match fault {
            Fault::AnyStateBusy => heads[other as usize * HEAD_WORDS] != 0,
            Fault::FilledForgotten => Head::read(heads, other).state == State::Claimed,
            _ => Head::read(heads, other).state != State::Idle,
        };
        let others = (0..HEADS).filter(|&other| other != head && at_work(other)).map(|other| Head::read(heads, other));
        let heads = others.filter(|other| other.slot == slot || fault == Fault::AnySlotCounts).collect();
        Beside { heads, fault }
    }

    fn is_at(&self, node: u64) -> bool {
        self.heads.iter().any(|head| head.node == node)
    }

    /// Refusal 13 of a claim: another head has the frame, or is at the very node.
    pub fn check(&self, frame: u64, uses: &Uses) -> Result<(), Ending> {
        let same_frame = self.fault != Fault::FrameShared && self.heads.iter().any(|head| head.frame == frame);
        check(!same_frame, if uses.node.is_some() { BUSY_FRAME } else { BUSY_FRAME_NO_RUN })?;
        let same_node = match self.fault {
            Fault::NodeShared => false,
            Fault::ParentForNode if !uses.new.is_empty() => self.is_at(uses.last),
            Fault::AnyChildForNode if !uses.new.is_empty() => uses.new.iter().any(|&node| self.is_at(node)),
            Fault::NodeWithoutRun => self.is_at(uses.node.unwrap_or(uses.last)),
            Fault::EndWithoutRun => self.is_at(uses.node.unwrap_or(uses.nodes)),
            _ => uses.node.map_or(false, |node| self.is_at(node)),
        };
        check(!same_node, if uses.new.is_empty() { BUSY_NODE } else { BUSY_CHILD })
    }

    /// An ending of a claim that these heads do not hinder, told apart from the one without them.
    pub fn ending(&self, ending: Ending, uses: &Uses) -> Ending {
        match ending {
            _ if self.heads.is_empty() => ending,
            CLEAR_ROOT | CLEAR_BELOW => CLEAR_BESIDE,
            DOUBLED_32 | DOUBLED_64 => DOUBLED_BESIDE,
            BRANCHED_2 | BRANCHED_4 | BRANCHED_LAST if self.is_at(uses.last) => BRANCHED_UNDER,
            BRANCHED_2 | BRANCHED_4 | BRANCHED_LAST => BRANCHED_BESIDE,
            TOO_FEW | NO_RUN if self.is_at(uses.last) => NO_RUN_UNDER,
            TOO_FEW | NO_RUN => NO_RUN_BESIDE,
            _ => ending,
        }
    }
}
