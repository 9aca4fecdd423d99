//! Has in histories: what it tells of the path, held against the definition of the path and against the rule for reels that were
//! opened in the run.
use crate::book::JUNK;
use crate::history::History;
use crate::model::call::{Call, Function, Handed};
use crate::model::fault::Fault;
use crate::model::image::Image;
use crate::model::path_nodes::Way;
use crate::paths::Cut;
use std::collections::HashSet;

impl History<'_> {
    /// After an answered call: how full its reels have been.
    pub fn note(&mut self, call: &Call, answer: u64, cut: bool) {
        if answer == 0 {
            self.loads.note(call, &self.table, cut, self.subject.fault());
        }
    }

    /// Must the reel have one node, by the rule?
    pub fn is_lone(&self, reel: u64) -> bool {
        self.loads.is_lone(reel, self.subject.fault())
    }

    /// Of Has, what the table does not know: the nodes on the path.
    pub fn compare_has(&mut self, call: &Call, handed: &Handed) -> Result<(), String> {
        let way = Way::of(call, &self.lent.image, Fault::None);
        if handed.path_nodes != way.nodes() {
            return Err(format!("nodes on the path: {} by the image, {} by the book", way.nodes(), handed.path_nodes));
        }
        if handed.answer != 0 {
            return Ok(());
        }
        if self.is_lone(call.reel) && handed.path_nodes != 1 {
            return Err(format!("{} nodes on the path, of a reel that never had more than 64 frames", handed.path_nodes));
        }
        let rule = self.rule();
        self.coverage.paths.gone(rule, &way, call.frame);
        self.coverage.paths.told(rule, call.reel, handed.path_nodes, &self.table, &self.loads);
        Ok(())
    }

    /// A Has beside the history's calls: the nodes on the path.
    pub fn ask(&mut self, reel: u64, frame: u64) -> Result<u64, String> {
        let call = Call { function: Function::Has, slots: 0, nodes: 0, head: 0, reel, frame, words: 0 };
        let handed = self.subject.perform(&call, &mut self.lent, JUNK);
        let expected = self.table.reels.get(&reel).map_or((5, 0), |frames| (0, u64::from(frames.contains(&frame))));
        if (handed.answer, handed.count) != expected {
            let found = (handed.answer, handed.count);
            return Err(format!("has reel={} frame={}: the table has {:?}, the book {:?}", reel, frame, expected, found));
        }
        self.compare_has(&call, &handed).map_err(|text| format!("has reel={} frame={}: {}", reel, frame, text))?;
        Ok(handed.path_nodes)
    }

    /// For a frame of the reel, and for one beside it, which goes to another child.
    pub fn ask_reel(&mut self, reel: u64) -> Result<(), String> {
        let frame = self.table.reels.get(&reel).and_then(|frames| frames.iter().next()).copied().unwrap_or(0);
        self.ask(reel, frame)?;
        self.ask(reel, frame ^ 1)?;
        Ok(())
    }

    /// After the recovery of a call cut short: in its reel, if that is there, for its frame.
    pub fn ask_after(&mut self, cut: &Cut) -> Result<(), String> {
        if self.table.reels.contains_key(&cut.call.reel) {
            let nodes = self.ask(cut.call.reel, cut.call.frame)?;
            self.coverage.paths.cut(cut, nodes, self.is_lone(cut.call.reel));
        }
        Ok(())
    }

    /// In every reel, after a recovery.
    pub fn ask_recovered(&mut self) -> Result<(), String> {
        let (rule, reels) = (self.rule(), self.table.reels.keys().copied().collect::<Vec<_>>());
        for reel in reels {
            self.ask_reel(reel)?;
            if self.is_lone(reel) {
                self.coverage.paths.recovered(rule);
            }
        }
        Ok(())
    }

    /// For a frame of every node, and for one that goes the same way and mostly is not held.
    pub fn ask_nodes(&mut self) -> Result<(), String> {
        let image = Image::read(&self.lent.image, Fault::None).map_err(|refusal| refusal.shape.to_string())?;
        let mut frames = Vec::new();
        for slot in image.filled_slots() {
            let walk = image.walk(image.root(slot), &mut HashSet::new()).map_err(|refusal| refusal.shape.to_string())?;
            let held = walk.iter().filter_map(|reached| reached.node.held().next().map(|place| reached.node.frame(place)));
            frames.extend(held.map(|frame| (image.reel(slot), frame)));
        }
        for (reel, frame) in frames {
            self.ask(reel, frame)?;
            self.ask(reel, frame ^ 1 << 63)?;
        }
        Ok(())
    }
}
