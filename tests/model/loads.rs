//! The rule of histories for a lookup's path: it has one node in a reel that was opened in the run and since then never had more
//! than 64 frames, held, claimed and filled taken together, a claim cut short counted in. Kept beside the plain table.
use super::call::{Call, Function};
use super::fault::Fault;
use super::table::{Head, Table};
use std::collections::BTreeMap;

/// As many as a root has places.
pub const BRIM: u64 = 64;

/// A reel since it was opened.
#[derive(Clone, Copy)]
pub struct Load {
    /// The most frames that it had at a time.
    pub most: u64,
    /// Its Open was cut short, and the reel is there all the same.
    pub cut: bool,
    /// In the run it was open before, and had more than 64.
    pub anew: bool,
}

/// The reels opened in the run. A load counts while its reel is there: when it is retired, nothing asks for it. What brings the
/// reel back is an Open, which starts a new one, or a crash that undoes the Retire.
#[derive(Default)]
pub struct Loads {
    loads: BTreeMap<u64, Load>,
}

/// The frames that a reel holds, and those that heads have claimed and filled in it.
pub fn load(table: &Table, reel: u64) -> [u64; 3] {
    let held = table.reels.get(&reel).map_or(0, |frames| frames.len() as u64);
    let heads = |is: fn(&Head) -> bool| {
        let about = |head: &&Head| is(head) && head.about().map_or(false, |about| about.0 == reel);
        table.heads.iter().filter(about).count() as u64
    };
    [held, heads(|head| matches!(head, Head::Claimed { .. })), heads(|head| matches!(head, Head::Filled { .. }))]
}

impl Loads {
    /// After a call that was answered, with the table that it makes; `cut` if it is cut short, whenever that is.
    pub fn note(&mut self, call: &Call, table: &Table, cut: bool, fault: Fault) {
        if call.function == Function::Open {
            let anew = self.loads.get(&call.reel).map_or(false, |load| load.anew || load.most > BRIM);
            self.loads.insert(call.reel, Load { most: 0, cut, anew });
        }
        if cut && call.function == Function::Claim && fault == Fault::CutClaimUncounted {
            return;
        }
        for (&reel, kept) in self.loads.iter_mut().filter(|(reel, _)| table.reels.contains_key(reel)) {
            let [held, claimed, filled] = load(table, reel);
            let load = match fault {
                Fault::HeldAlone => held,
                Fault::ClaimUncounted => held + filled,
                Fault::FilledUncounted => held + claimed,
                _ => held + claimed + filled,
            };
            kept.most = if fault == Fault::PresentLoad { load } else { kept.most.max(load) };
        }
    }

    /// A run starts on an image that has these reels: none of them is opened in it.
    pub fn found(&mut self, table: &Table, fault: Fault) {
        self.loads.clear();
        if fault == Fault::FoundIsOpened {
            let load = |reel: u64| Load { most: load(table, reel).iter().sum(), cut: false, anew: false };
            self.loads.extend(table.reels.keys().map(|&reel| (reel, load(reel))));
        }
    }

    /// That of a reel that is there, if it was opened in the run.
    pub fn of(&self, reel: u64) -> Option<Load> {
        self.loads.get(&reel).copied()
    }

    /// Has a lookup's path in this reel one node, by the rule?
    pub fn is_lone(&self, reel: u64, fault: Fault) -> bool {
        let most = if fault == Fault::BrimOf65 { BRIM + 1 } else { BRIM };
        self.of(reel).map_or(false, |load| load.most <= most)
    }
}
