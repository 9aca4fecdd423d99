//! Directed histories: a reel is filled to the brim of its root, with 64 frames held, claimed and filled together, and then gets
//! the 65th. The claims of both are cut short at every entry. Up to the 65th a lookup's path has one node.
use crate::directed::ANY;
use crate::history::History;
use crate::model::call::Function::*;
use crate::model::image::HEADS;
use crate::model::loads::BRIM;
use crate::paths::{AFTER_BUSY, AFTER_NO_RUN};

/// What has become of the 64th frame when the 65th is claimed.
#[derive(Clone, Copy, PartialEq, Eq)]
enum Last {
    Claimed,
    Filled,
    Held,
}

/// So many frames are held before several heads take turns.
const ALONE: u64 = 61;

impl History<'_> {
    pub fn fill_to_the_brim(&mut self) -> Result<(), String> {
        let reel = self.plan.reels[0];
        for last in [Last::Claimed, Last::Filled, Last::Held] {
            self.open_anew(reel, &[])?;
            while self.held(reel) < ALONE {
                self.add_or_not(reel)?;
            }
            self.take_turns(reel)?;
            self.cut_the_64th(reel)?;
            let head = self.random.below(HEADS);
            self.reach_64(reel, head, last)?;
            self.pass_64(reel, (head + 1) % HEADS)?;
        }
        self.check_book()
    }

    /// A frame more. Now and then its claim is given back, or one that is held goes.
    fn add_or_not(&mut self, reel: u64) -> Result<(), String> {
        let (head, frame) = (self.random.below(HEADS), self.fresh(reel, ANY));
        self.done(Claim, head, reel, frame)?;
        let other = self.random.below(40);
        if other > 0 {
            self.done(Fill, head, reel, frame)?;
        }
        self.done(if other > 1 { Commit } else { Abandon }, head, reel, frame)?;
        if other == 2 {
            self.done(Remove, 0, reel, frame)?;
        }
        Ok(())
    }

    /// From 61 to 63: while one head is at the root, the others find it taken, its frame too.
    fn take_turns(&mut self, reel: u64) -> Result<(), String> {
        while self.held(reel) < BRIM - 1 {
            let (head, frame) = (self.random.below(HEADS), self.fresh(reel, ANY));
            for function in [Claim, Fill] {
                self.done(function, head, reel, frame)?;
                let (other, fresh) = ((head + self.random.between(1, HEADS - 1)) % HEADS, self.fresh(reel, ANY));
                for claimed in [frame, fresh] {
                    if self.carry(Claim, other, reel, claimed)? != 13 {
                        return Err(format!("head {} claims in a root that head {} is at", other, head));
                    }
                    self.ask_reel(reel)?;
                    self.coverage.paths.reel(self.rule(), AFTER_BUSY);
                }
            }
            let last = if self.random.one_in(3) { Abandon } else { Commit };
            self.done(last, head, reel, frame)?;
        }
        Ok(())
    }

    /// The 64th is cut short in its claim, in its fill and in its commit. It is then not held, or goes again.
    fn cut_the_64th(&mut self, reel: u64) -> Result<(), String> {
        for done in [&[][..], &[Claim], &[Claim, Fill]] {
            let (head, frame) = (self.random.below(HEADS), self.fresh(reel, ANY));
            for &function in done {
                self.done(function, head, reel, frame)?;
            }
            self.cut([Claim, Fill, Commit][done.len()], head, reel, frame)?;
            if self.held(reel) == BRIM {
                self.done(Remove, 0, reel, frame)?;
            }
        }
        Ok(())
    }

    fn reach_64(&mut self, reel: u64, head: u64, last: Last) -> Result<(), String> {
        let frame = self.fresh(reel, ANY);
        for (function, done) in [(Claim, Last::Claimed), (Fill, Last::Filled), (Commit, Last::Held)] {
            self.done(function, head, reel, frame)?;
            self.ask_reel(reel)?;
            self.ask(reel, frame)?;
            if done == last {
                break;
            }
        }
        Ok(())
    }

    /// The 65th: refused while other reels have all nodes; cut short, and the group that it may leave given back; then once more,
    /// till it is there or given back. A lookup's path keeps its two nodes when frames go, until an empty group is given back.
    fn pass_64(&mut self, reel: u64, head: u64) -> Result<(), String> {
        let frame = self.fresh(reel, ANY);
        self.take_all_nodes()?;
        while self.due(&self.call(Claim, head, reel, frame)).0 == 8 {
            self.carry(Claim, head, reel, frame)?;
            self.ask_reel(reel)?;
            self.coverage.paths.reel(self.rule(), AFTER_NO_RUN);
            if !self.retire_another(&[reel])? {
                return Err("no other reel is left, and there is no run".to_string());
            }
        }
        self.cut(Claim, head, reel, frame)?;
        if self.random.one_in(2) {
            self.carry_or_cut(Tidy, reel)?;
        }
        while self.held(reel) <= BRIM {
            self.add_or_not(reel)?;
            self.ask_reel(reel)?;
        }
        for _ in 0..3 {
            let frames = &self.table.reels[&reel];
            let frame = frames.iter().nth(self.random.below(frames.len() as u64) as usize).copied().unwrap_or(0);
            self.done(Remove, 0, reel, frame)?;
            self.ask_reel(reel)?;
        }
        self.carry_or_cut(Tidy, reel)?;
        Ok(())
    }
}
