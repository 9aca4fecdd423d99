//! What directed histories are made of: calls that have to come to an end, carried out or cut short at every entry.
use crate::coverage::Claims;
use crate::history::History;
use crate::model::call::{Call, Function, Function::*};
use crate::model::loads::load;
use crate::model::script::Entry;
use crate::report::describe;

/// No low bits that a frame is to have.
pub const ANY: (u64, u64) = (0, 0);

impl History<'_> {
    pub fn held(&self, reel: u64) -> u64 {
        load(&self.table, reel)[0]
    }

    /// A call, made again where it was lent a wrong length. The answer and the entries.
    fn make(&mut self, call: &Call) -> Result<(u64, Vec<Entry>), String> {
        loop {
            let mut again = *call;
            let made = self.perform(&mut again).map_err(|text| format!("{}: {}", describe(call), text))?;
            if !matches!(made.0, 1 | 3) {
                return Ok(made);
            }
        }
    }

    pub fn call(&self, function: Function, head: u64, reel: u64, frame: u64) -> Call {
        Call { function, slots: self.table.slots, nodes: self.table.nodes, head, reel, frame, words: 0 }
    }

    /// A call whose script is carried out: the answer.
    pub fn carry(&mut self, function: Function, head: u64, reel: u64, frame: u64) -> Result<u64, String> {
        let call = self.call(function, head, reel, frame);
        let (answer, entries) = self.make(&call)?;
        self.note(&call, answer, false);
        self.carry_out(&call, answer, &entries).map_err(|text| format!("{}: {}", describe(&call), text))?;
        Ok(answer)
    }

    /// The same, to be answered.
    pub fn done(&mut self, function: Function, head: u64, reel: u64, frame: u64) -> Result<(), String> {
        match self.carry(function, head, reel, frame)? {
            0 => Ok(()),
            answer => Err(format!("{} is answered with {}", describe(&self.call(function, head, reel, frame)), answer)),
        }
    }

    /// A call that is cut short, at every entry: the answer.
    pub fn cut(&mut self, function: Function, head: u64, reel: u64, frame: u64) -> Result<u64, String> {
        let call = self.call(function, head, reel, frame);
        let (before, claims) = (self.table.reels.clone(), Claims::of(&self.table, &call));
        let (answer, entries) = self.make(&call)?;
        let claims = claims.max(Claims::of(&self.table, &call));
        self.note(&call, answer, true);
        let crashed = self.crash_in_script(&call, &entries, &before, claims);
        crashed.map_err(|text| format!("{}: {}", describe(&call), text))?;
        Ok(answer)
    }

    /// The one or the other.
    pub fn carry_or_cut(&mut self, function: Function, reel: u64) -> Result<u64, String> {
        if self.random.one_in(2) {
            return self.cut(function, 0, reel, 0);
        }
        self.carry(function, 0, reel, 0)
    }

    /// The reel goes, if it is there, and is opened, for which others but these may have to go too.
    pub fn open_anew(&mut self, reel: u64, kept: &[u64]) -> Result<(), String> {
        while self.table.reels.contains_key(&reel) {
            self.carry_or_cut(Retire, reel)?;
        }
        while !self.table.reels.contains_key(&reel) {
            if self.carry_or_cut(Open, reel)? != 0 {
                self.retire_another(kept)?;
            }
        }
        self.ask_reel(reel)
    }

    /// One but these. True if there is one.
    pub fn retire_another(&mut self, kept: &[u64]) -> Result<bool, String> {
        let others: Vec<u64> = self.table.quiet_reels().into_iter().filter(|other| !kept.contains(other)).collect();
        if others.is_empty() {
            return Ok(false);
        }
        let other = self.random.pick(&others);
        self.ask_reel(other)?;
        self.done(Retire, 0, other, 0)?;
        Ok(true)
    }

    /// A frame that the reel does not hold, and no head has, with these low bits.
    pub fn fresh(&mut self, reel: u64, (bits, low): (u64, u64)) -> u64 {
        loop {
            let frame = self.random.word() >> self.random.pick(&[0, 32, 52]) << bits | low;
            if !self.table.reels[&reel].contains(&frame) && !self.table.claimed(reel, frame) {
                return frame;
            }
        }
    }

    /// All nodes that are left are taken, by reels that hold nothing.
    pub fn take_all_nodes(&mut self) -> Result<(), String> {
        let closed = |history: &Self| history.plan.reels.iter().copied().find(|reel| !history.table.reels.contains_key(reel));
        while let Some(other) = closed(self) {
            if self.carry(Open, 0, other, 0)? != 0 {
                break;
            }
        }
        Ok(())
    }
}
