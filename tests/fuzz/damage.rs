//! Damage to an image's trees and to its table: every way in which it can be unsound, and words of any content.
use crate::model::image::*;
use crate::model::node::*;
use crate::model::rule::{Rule, SECOND};
use crate::random::Random;
use crate::tables;
use std::ops::Range;

pub struct Damage<'a> {
    pub random: &'a mut Random,
    pub image: &'a mut [u64],
    pub slots: u64,
    pub nodes: u64,
}

/// A slot, filled if the first one drawn or another is.
pub fn some_slot(random: &mut Random, image: &[u64], slots: u64) -> u64 {
    let drawn = random.below(slots);
    let filled = |&slot: &u64| image[slot_index(slot) as usize + 1] != 0;
    (drawn..slots).chain(0..drawn).find(filled).unwrap_or(drawn)
}

/// The numbers of a slot's nodes from the root down to one, mostly deep. Any node where the slot is empty.
pub fn descent(random: &mut Random, image: &[u64], slots: u64, nodes: u64, slot: u64) -> Vec<u64> {
    let mut next = image[slot_index(slot) as usize + 1];
    let mut numbers = Vec::new();
    let stop = random.pick(&[2, 1000, 1000]);
    while next != 0 && next <= nodes && numbers.len() < 32 && !(numbers.len() > 1 && random.one_in(stop)) {
        let level = numbers.len() as u64;
        let group = if level == 0 { 1 } else { children(level - 1) };
        let number = deeper(random, image, slots, next - 1..(next - 1 + group).min(nodes), level);
        numbers.push(number);
        next = image[node_index(slots, number) as usize];
    }
    if numbers.is_empty() {
        numbers.push(random.below(nodes));
    }
    numbers
}

/// One of a group of nodes: of those at their level, and there of those with children, if there are such.
fn deeper(random: &mut Random, image: &[u64], slots: u64, group: Range<u64>, level: u64) -> u64 {
    let word = |number: u64, word: u64| image[(node_index(slots, number) + word) as usize];
    let rank = |number: u64| u64::from(word(number, LEVEL_AT) == level) * (1 + u64::from(word(number, NEXT) != 0));
    let best = group.clone().map(rank).max().unwrap_or(0);
    let among: Vec<u64> = group.filter(|&number| rank(number) == best).collect();
    random.pick(&among)
}

impl Damage<'_> {
    fn descent(&mut self) -> Vec<u64> {
        let slot = some_slot(self.random, self.image, self.slots);
        descent(self.random, self.image, self.slots, self.nodes, slot)
    }

    /// The word of a node, mostly of one that is reached.
    fn node_word(&mut self, word: u64) -> usize {
        let numbers = self.descent();
        let number = if self.random.one_in(4) { self.random.pick(&numbers) } else { numbers[numbers.len() - 1] };
        (node_index(self.slots, number) + word) as usize
    }

    fn odd_word(&mut self) -> u64 {
        self.random.odd_word(&[self.slots, self.nodes, 16, 32, 64])
    }

    pub fn once(&mut self) {
        match self.random.below(17) {
            0 | 1 => self.next(),
            2 => self.shared_children(),
            3 => self.small_word(),
            4 => self.bitmap(),
            5 => self.above_size(),
            6 => self.fingerprint(),
            7 => self.other_fingerprint(),
            8 => self.frame(),
            9..=11 => self.copy(),
            12 | 13 => self.slot(),
            14 => tables::change_rule(self.random, self.image),
            15 => tables::make_bad(self.random, self.image),
            _ => {
                let index = self.random.between(HEADER_WORDS, self.image.len() as u64 - 1) as usize;
                self.image[index] = self.odd_word();
            }
        }
    }

    /// Children past the pool, in a cycle, or where there are none.
    fn next(&mut self) {
        let to = self.node_word(NEXT);
        match self.random.below(3) {
            0 => self.past_pool(to),
            1 => self.image[to] = self.random.between(1, self.nodes),
            _ => self.image[to] = self.odd_word(),
        }
    }

    /// The children that are inside may be as they should.
    fn past_pool(&mut self, node: usize) {
        let next = self.random.between(self.nodes.saturating_sub(4), self.nodes + 1);
        self.image[node] = next;
        let below = self.image[node + LEVEL_AT as usize].wrapping_add(1);
        let first = if self.random.one_in(2) { next.max(1) - 1 } else { self.nodes };
        for child in first..self.nodes {
            for (word, value) in [(NEXT, 0), (LEVEL_AT, below), (SIZE_AT, 64)] {
                self.image[(node_index(self.slots, child) + word) as usize] = value;
            }
        }
    }

    /// A node and one beside it have the same children.
    fn shared_children(&mut self) {
        let numbers = self.descent();
        if numbers.len() > 2 {
            let number = numbers[numbers.len() - 2];
            let beside = self.random.pick(&[number.saturating_sub(1), (number + 1).min(self.nodes - 1)]);
            let next = |number: u64| (node_index(self.slots, number) + NEXT) as usize;
            self.image[next(beside)] = self.image[next(number)];
        }
    }

    /// Level or size.
    fn small_word(&mut self) {
        let word = self.random.pick(&[LEVEL_AT, SIZE_AT]);
        let at = self.node_word(word);
        self.image[at] = match self.random.below(3) {
            0 => self.random.pick(&[0, 8, 16, 32, 48, 64, 65, 128, 16 | 1 << 32]),
            1 => self.image[at].wrapping_add(1),
            _ => self.odd_word(),
        };
    }

    fn bitmap(&mut self) {
        let word = self.random.pick(&[LOCATE, SET]);
        let at = self.node_word(word);
        match self.random.below(3) {
            0 => self.image[at] ^= 1 << self.random.between(14, 34),
            1 => self.image[at] ^= 1 << self.random.below(64),
            _ => self.image[at] = self.odd_word(),
        }
    }

    /// A bit at or above the size of a small root.
    fn above_size(&mut self) {
        let at = node_index(self.slots, self.descent()[0]);
        let word = self.random.pick(&[LOCATE, SET]);
        let size = self.image[(at + SIZE_AT) as usize];
        if size < PLACES {
            let above = self.random.between(size, PLACES - 1);
            self.image[(at + word) as usize] |= 1 << self.random.pick(&[size, above]);
        }
    }

    fn fingerprint(&mut self) {
        let word = FINGERPRINTS + self.random.below(8);
        let at = self.node_word(word);
        self.image[at] ^= 1 << self.random.below(64);
    }

    /// The image's; another damage may have left it none.
    fn rule(&self) -> Rule {
        Rule::of(self.image).unwrap_or(SECOND)
    }

    /// A held frame with the fingerprint that another rule would have.
    fn other_fingerprint(&mut self) {
        let at = self.node_word(0) as u64;
        let set = self.image[(at + SET) as usize];
        let any = self.random.below(PLACES);
        let place = if set >> any & 1 == 1 { any } else { u64::from(set.trailing_zeros()).min(PLACES - 1) };
        let frame = self.image[(at + FRAMES + place) as usize];
        let others: Vec<Rule> = self.rule().others().collect();
        let print = self.random.pick(&others).fingerprint(self.image, frame);
        self.put_fingerprint(at, place, print);
    }

    /// Another frame in a place, with its right fingerprint or with the old one; perhaps off its path.
    fn frame(&mut self) {
        let at = self.node_word(0) as u64;
        let place = self.random.below(PLACES);
        let frame = self.image[(at + FRAMES + place) as usize] ^ 1 << self.random.below(64);
        if self.random.one_in(4) {
            self.image[(at + FRAMES + place) as usize] = frame;
        } else {
            self.hold(at, place, frame);
        }
    }

    /// A frame held a second time: in its node, or in a node above.
    fn copy(&mut self) {
        let numbers = self.descent();
        let from = node_index(self.slots, numbers[numbers.len() - 1]);
        let to = node_index(self.slots, self.random.pick(&numbers));
        let set = self.image[(from + SET) as usize];
        let place = (set.trailing_zeros() as u64).min(PLACES - 1);
        let frame = self.image[(from + FRAMES + place) as usize];
        let place = self.random.below(PLACES);
        self.hold(to, place, frame);
    }

    fn hold(&mut self, at: u64, place: u64, frame: u64) {
        self.image[(at + FRAMES + place) as usize] = frame;
        self.put_fingerprint(at, place, self.rule().fingerprint(self.image, frame));
        self.image[(at + SET) as usize] |= 1 << place;
    }

    fn put_fingerprint(&mut self, at: u64, place: u64, print: u64) {
        let index = (at + FINGERPRINTS + place / 8) as usize;
        self.image[index] = with_byte(self.image[index], place % 8, print);
    }

    /// A reel number or root from another slot, or any, mostly in a filled one.
    fn slot(&mut self) {
        let word = self.random.below(2);
        let [to, from] = [(); 2].map(|_| some_slot(self.random, self.image, self.slots));
        let to = if self.random.one_in(4) { self.random.below(self.slots) } else { to };
        let index = |slot: u64| (slot_index(slot) + word) as usize;
        self.image[index(to)] = if self.random.one_in(3) { self.odd_word() } else { self.image[index(from)] };
    }
}
