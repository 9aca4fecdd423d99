//! The plain table of reels: what a history of operations answers, without nodes, scripts or crashes.
//! It is fed the calls' numbers, the lengths lent, the table that Format is given, and the book's answer where that turns on
//! nodes: 8, Claim's 13 for a node, and 18.
use super::call::{Call, Function, Lent};
use super::image::{image_words, map_words, HEADS, MAX_NODES, MAX_SLOTS};
use super::script::SCRIPT_WORDS;
use std::collections::{BTreeMap, BTreeSet};

pub type Reels = BTreeMap<u64, BTreeSet<u64>>;

#[derive(Clone, Copy, PartialEq, Eq, Debug)]
pub enum Head {
    Idle,
    Claimed { reel: u64, frame: u64 },
    Filled { reel: u64, frame: u64 },
}

impl Head {
    /// The reel and the frame, unless it is idle.
    pub fn about(&self) -> Option<(u64, u64)> {
        match *self {
            Head::Idle => None,
            Head::Claimed { reel, frame } | Head::Filled { reel, frame } => Some((reel, frame)),
        }
    }
}

/// Of what is lent: the lengths, and the bytes of a table.
pub struct Fed<'a> {
    image: u64,
    copy: u64,
    map: u64,
    script: u64,
    scratch: u64,
    list: u64,
    table: &'a [u8],
}

impl Fed<'_> {
    pub fn of(lent: &Lent) -> Fed<'_> {
        Fed {
            image: lent.image.len() as u64,
            copy: lent.copy.len() as u64,
            map: lent.map.len() as u64,
            script: lent.script.len() as u64,
            scratch: lent.scratch.len() as u64,
            list: lent.list.len() as u64,
            table: lent.table(),
        }
    }
}

/// What Has and List read.
#[derive(PartialEq, Eq, Debug)]
pub enum Value {
    None,
    Has(bool),
    Frames(BTreeSet<u64>),
}

pub type Reply = Result<Value, u64>;

#[derive(Clone)]
pub struct Table {
    pub slots: u64,
    pub nodes: u64,
    /// A table was given.
    pub own: bool,
    pub reels: Reels,
    pub heads: [Head; HEADS as usize],
}

fn refuse(applies: bool, number: u64) -> Result<(), u64> {
    if applies {
        Err(number)
    } else {
        Ok(())
    }
}

impl Table {
    pub fn formatted(slots: u64, nodes: u64, own: bool) -> Table {
        Table { slots, nodes, own, reels: Reels::new(), heads: [Head::Idle; HEADS as usize] }
    }

    pub fn holds_frames(&self) -> bool {
        self.reels.values().any(|frames| !frames.is_empty())
    }

    /// How many heads have a claim open, and in a reel.
    pub fn claims(&self) -> u64 {
        self.heads.iter().filter(|&&head| head != Head::Idle).count() as u64
    }

    pub fn claims_in(&self, reel: u64) -> u64 {
        self.heads.iter().filter(|head| head.about().map_or(false, |about| about.0 == reel)).count() as u64
    }

    /// The reels that no head is about.
    pub fn quiet_reels(&self) -> Vec<u64> {
        self.reels.keys().copied().filter(|&reel| !self.busy(reel)).collect()
    }

    fn busy(&self, reel: u64) -> bool {
        self.claims_in(reel) > 0
    }

    /// Does a head have this frame of this reel?
    pub fn claimed(&self, reel: u64, frame: u64) -> bool {
        self.heads.iter().any(|head| head.about() == Some((reel, frame)))
    }

    /// The value, or the refusal's number. `book` is the book's answer.
    pub fn perform(&mut self, call: &Call, fed: &Fed, book: u64) -> Reply {
        if call.function == Function::Format {
            return self.format(call, fed);
        }
        self.check_lengths(call.function, fed)?;
        match call.function {
            Function::Recover => self.heads = [Head::Idle; HEADS as usize],
            Function::Open => self.open(call.reel, book)?,
            Function::Claim => self.claim(call, book)?,
            Function::Fill => self.fill(call.head)?,
            Function::Commit => self.commit(call.head)?,
            Function::Abandon => self.abandon(call.head)?,
            Function::Remove => self.remove(call.reel, call.frame)?,
            Function::Has => return Ok(Value::Has(self.frames(call.reel)?.contains(&call.frame))),
            Function::List => return self.list(call.reel, fed.list),
            Function::Retire => self.retire(call.reel)?,
            Function::Tidy => self.tidy(call.reel, book)?,
            Function::Convert => refuse(self.own, 17)?,
            Function::Format | Function::Apply | Function::Translate => unreachable!("answered above, or no operation"),
        }
        Ok(Value::None)
    }

    fn format(&mut self, call: &Call, fed: &Fed) -> Reply {
        let allowed = (1..=MAX_SLOTS).contains(&call.slots) && (1..=MAX_NODES).contains(&call.nodes);
        refuse(!allowed || fed.image != image_words(call.slots, call.nodes), 1)?;
        refuse(fed.map != map_words(call.nodes), 3)?;
        let own = !fed.table.is_empty();
        refuse(own && fed.table.len() != 256, 16)?;
        refuse(own && !(0..=255).all(|byte| fed.table.contains(&byte)), 16)?;
        *self = Table::formatted(call.slots, call.nodes, own);
        Ok(Value::None)
    }

    /// Refusals 1 and 3, for what the operation is lent.
    fn check_lengths(&self, function: Function, fed: &Fed) -> Result<(), u64> {
        use Function::*;
        refuse(fed.image != image_words(self.slots, self.nodes), 1)?;
        refuse(function == Convert && fed.copy != fed.image, 1)?;
        let map = matches!(function, Recover | Open | Claim | Retire | Tidy);
        refuse(map && fed.map != map_words(self.nodes), 3)?;
        let scratch = matches!(function, List | Retire | Tidy | Convert);
        refuse(scratch && fed.scratch != map_words(self.nodes), 3)?;
        let script = !matches!(function, Recover | Has | List | Convert);
        refuse(script && fed.script < SCRIPT_WORDS as u64, 3)
    }

    fn frames(&mut self, reel: u64) -> Result<&mut BTreeSet<u64>, u64> {
        self.reels.get_mut(&reel).ok_or(5)
    }

    /// Refusals 5 and 13.
    fn quiet(&mut self, reel: u64) -> Result<&mut BTreeSet<u64>, u64> {
        let busy = self.busy(reel);
        let frames = self.frames(reel)?;
        refuse(busy, 13)?;
        Ok(frames)
    }

    /// Refusal 11.
    fn head(&mut self, head: u64) -> Result<&mut Head, u64> {
        refuse(head >= HEADS, 11)?;
        Ok(&mut self.heads[head as usize])
    }

    fn open(&mut self, reel: u64, book: u64) -> Result<(), u64> {
        refuse(self.reels.contains_key(&reel), 6)?;
        refuse(self.reels.len() as u64 == self.slots, 7)?;
        refuse(book == 8, 8)?;
        self.reels.insert(reel, BTreeSet::new());
        Ok(())
    }

    fn claim(&mut self, call: &Call, book: u64) -> Result<(), u64> {
        let (reel, frame) = (call.reel, call.frame);
        refuse(*self.head(call.head)? != Head::Idle, 12)?;
        refuse(self.frames(reel)?.contains(&frame), 9)?;
        refuse(self.claimed(reel, frame) || book == 13, 13)?;
        refuse(book == 8, 8)?;
        *self.head(call.head)? = Head::Claimed { reel, frame };
        Ok(())
    }

    fn fill(&mut self, head: u64) -> Result<(), u64> {
        let head = self.head(head)?;
        match *head {
            Head::Claimed { reel, frame } => *head = Head::Filled { reel, frame },
            _ => return Err(12),
        }
        Ok(())
    }

    fn commit(&mut self, head: u64) -> Result<(), u64> {
        let head = self.head(head)?;
        match *head {
            Head::Filled { reel, frame } => {
                *head = Head::Idle;
                self.frames(reel)?.insert(frame);
            }
            _ => return Err(12),
        }
        Ok(())
    }

    fn abandon(&mut self, head: u64) -> Result<(), u64> {
        let head = self.head(head)?;
        refuse(*head == Head::Idle, 12)?;
        *head = Head::Idle;
        Ok(())
    }

    fn remove(&mut self, reel: u64, frame: u64) -> Result<(), u64> {
        refuse(!self.quiet(reel)?.remove(&frame), 10)
    }

    fn list(&mut self, reel: u64, room: u64) -> Reply {
        let frames = self.frames(reel)?;
        refuse(frames.len() as u64 > room, 14)?;
        Ok(Value::Frames(frames.clone()))
    }

    fn retire(&mut self, reel: u64) -> Result<(), u64> {
        self.quiet(reel)?;
        self.reels.remove(&reel);
        Ok(())
    }

    /// Nothing changes: what is given back are nodes.
    fn tidy(&mut self, reel: u64, book: u64) -> Result<(), u64> {
        self.quiet(reel)?;
        refuse(book == 18, 18)
    }
}
