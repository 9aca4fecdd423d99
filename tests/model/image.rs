//! The image's layout: header, slots, nodes; the pool map; the head records.
use super::ending::*;
use super::fault::Fault;

/// What Format writes, and what it wrote before: an image of either is read by its own rule.
pub const EDITION: u64 = 2;
pub const FIRST_EDITION: u64 = 1;
pub const MAX_SLOTS: u64 = 4096;
pub const MAX_NODES: u64 = 65536;
pub const HEADER_WORDS: u64 = 64;
/// In edition 2 this word is 1 where the image has a table of its own, in the words from the second on, and 0 where ours applies.
pub const OWN_AT: usize = 3;
pub const TABLE_AT: usize = 8;
pub const TABLE_WORDS: usize = 32;
pub const SLOT_WORDS: u64 = 2;
pub const NODE_WORDS: u64 = 80;
pub const HEADS: u64 = 4;
pub const HEAD_WORDS: usize = 5;

pub fn image_words(slots: u64, nodes: u64) -> u64 {
    HEADER_WORDS + SLOT_WORDS * slots + NODE_WORDS * nodes
}

pub fn map_words(nodes: u64) -> u64 {
    (nodes + 63) / 64
}

pub fn slot_index(slot: u64) -> u64 {
    HEADER_WORDS + SLOT_WORDS * slot
}

pub fn node_index(slots: u64, node: u64) -> u64 {
    slot_index(slots) + NODE_WORDS * node
}

/// Refusal 1, for these R and N.
pub fn check_length(length: usize, slots: u64, nodes: u64, fault: Fault) -> Result<(), Ending> {
    let least = if fault == Fault::NoSlots { 0 } else { 1 };
    if !(least..=MAX_SLOTS).contains(&slots) {
        return Err(SLOTS);
    }
    if !(1..=MAX_NODES).contains(&nodes) {
        return Err(NODES);
    }
    if length as u64 != image_words(slots, nodes) {
        return Err(LENGTH);
    }
    Ok(())
}

/// An image of the right length, read.
#[derive(Clone, Copy)]
pub struct Image<'a> {
    pub words: &'a [u64],
    pub slots: u64,
    pub nodes: u64,
    pub fault: Fault,
}

impl<'a> Image<'a> {
    /// Refusal 1.
    pub fn read(words: &'a [u64], fault: Fault) -> Result<Image<'a>, Ending> {
        if words.len() < HEADER_WORDS as usize {
            return Err(TOO_SHORT);
        }
        let (slots, nodes) = (words[1], words[2]);
        check_length(words.len(), slots, nodes, fault)?;
        Ok(Image { words, slots, nodes, fault })
    }

    /// One whose length is known to be right.
    pub fn of(words: &'a [u64]) -> Image<'a> {
        Image { words, slots: words[1], nodes: words[2], fault: Fault::None }
    }

    pub fn word(&self, index: u64) -> u64 {
        self.words[index as usize]
    }

    pub fn edition(&self) -> u64 {
        self.word(0)
    }

    pub fn reel(&self, slot: u64) -> u64 {
        self.word(slot_index(slot))
    }

    pub fn root(&self, slot: u64) -> u64 {
        self.word(slot_index(slot) + 1)
    }

    pub fn filled(&self, slot: u64) -> bool {
        self.root(slot) != 0
    }

    pub fn filled_slots(&self) -> impl Iterator<Item = u64> + 'a {
        let image = *self;
        (0..image.slots).filter(move |&slot| image.filled(slot))
    }

    /// A reel is the lowest filled slot with its number.
    pub fn slot_of(&self, reel: u64) -> Option<u64> {
        let mut slots = self.filled_slots().filter(|&slot| self.reel(slot) == reel);
        if self.fault == Fault::HighestSlot {
            slots.last()
        } else {
            slots.next()
        }
    }

    pub fn node_index(&self, node: u64) -> u64 {
        node_index(self.slots, node)
    }
}

pub fn is_used(map: &[u64], node: u64) -> bool {
    map[(node / 64) as usize] >> (node % 64) & 1 == 1
}

pub fn mark_used(map: &mut [u64], node: u64) {
    map[(node / 64) as usize] |= 1 << (node % 64);
}

pub fn mark_free(map: &mut [u64], node: u64) {
    map[(node / 64) as usize] &= !(1 << (node % 64));
}

/// The lowest run of adjacent free nodes.
pub fn free_run(map: &[u64], nodes: u64, length: u64) -> Option<u64> {
    (0..nodes).find(|&first| first + length <= nodes && (first..first + length).all(|node| !is_used(map, node)))
}

#[derive(Clone, Copy, PartialEq, Eq, Debug)]
pub enum State {
    Idle,
    Claimed,
    Filled,
}

#[derive(Clone, Copy)]
pub struct Head {
    pub state: State,
    pub slot: u64,
    pub node: u64,
    pub place: u64,
    pub frame: u64,
}

impl Head {
    pub fn read(heads: &[u64], head: u64) -> Head {
        let record = &heads[head as usize * HEAD_WORDS..][..HEAD_WORDS];
        let state = match record[0] {
            1 => State::Claimed,
            2 => State::Filled,
            _ => State::Idle,
        };
        Head { state, slot: record[1], node: record[2], place: record[3], frame: record[4] }
    }
}

pub fn write_head(heads: &mut [u64], head: u64, record: [u64; HEAD_WORDS]) {
    heads[head as usize * HEAD_WORDS..][..HEAD_WORDS].copy_from_slice(&record);
}
