//! Buffers of any content and length for one call: maps, head records, scripts, second images, headers, tables.
use crate::model::buffer::Buffer;
use crate::model::call::{Call, Function, Lent};
use crate::model::claim::node_used;
use crate::model::fault::Fault;
use crate::model::image::*;
use crate::model::node::PLACES;
use crate::model::script::{Entry, BARRIER, FLUSH, LINE_WORDS, SCRIPT_WORDS};
use crate::random::Random;
use crate::tables;

pub struct Lending<'a> {
    pub random: &'a mut Random,
    pub lent: &'a mut Lent,
    pub slots: u64,
    pub nodes: u64,
}

impl Lending<'_> {
    fn odd_word(&mut self) -> u64 {
        self.random.odd_word(&[self.slots, self.nodes, PLACES])
    }

    /// A map that need not agree with the trees: full, fragmented, or with one free run; with any spare bits.
    pub fn map(&mut self) {
        let kind = self.random.below(6);
        for word in self.lent.map.iter_mut() {
            *word = match kind {
                0 => 0,
                1 => self.random.word(),
                2 => self.random.word() | self.random.word() | self.random.word(),
                3 => 0x5555_5555_5555_5555 << self.random.below(2),
                _ => u64::MAX,
            };
        }
        if kind == 5 {
            let near_border = self.random.one_in(2) && self.nodes > 64;
            let first = if near_border { self.random.between(60, 64) } else { self.random.below(self.nodes) };
            let after = (first + self.random.between(1, 5)).min(self.nodes);
            (first..after).for_each(|node| mark_free(&mut self.lent.map, node));
        }
    }

    pub fn spare_bits(&mut self) {
        if self.nodes % 64 != 0 {
            let last = self.lent.map.len() - 1;
            self.lent.map[last] |= self.random.word() << (self.nodes % 64);
        }
    }

    /// Records in any state, more often in one that the function asks for.
    pub fn heads(&mut self, function: Function) {
        let wanted = match function {
            Function::Fill => 1,
            Function::Commit => 2,
            Function::Abandon => self.random.between(1, 2),
            _ => 0,
        };
        for head in 0..HEADS {
            let any = [self.random.below(4), self.random.word(), wanted | 1 << 32];
            let state = if self.random.one_in(3) { self.random.pick(&any) } else { wanted };
            let slot = self.number(self.slots);
            let node = self.number(self.nodes);
            let place = self.number(PLACES);
            write_head(&mut self.lent.heads, head, [state, slot, node, place, self.random.word()]);
        }
    }

    /// Other heads in the way of a claim, or just beside it: records with its slot, its frame, the node that it would use, nodes
    /// of its path, or numbers near these. Now and then there is no run for it.
    pub fn rivals(&mut self, call: &Call) {
        if self.random.one_in(6) {
            self.lent.map.fill(u64::MAX);
        }
        let image = Image { words: &self.lent.image, slots: self.slots, nodes: self.nodes, fault: Fault::None };
        let slot = image.slot_of(call.reel).unwrap_or(0);
        let path = if image.filled(slot) { image.path(image.root(slot), call.frame).unwrap_or_default() } else { Vec::new() };
        let path: Vec<u64> = path.iter().map(|node| node.number).collect();
        let last = path.last().copied().unwrap_or(0);
        let used = node_used(call, self.lent).unwrap_or(last);
        for head in 0..HEADS {
            let state = if head == call.head { self.random.pick(&[0, 0, 0, 3]) } else { self.random.pick(&[0, 1, 1, 2, 2, 3]) };
            let slot = self.random.pick(&[slot, slot, slot, slot, (slot + 1) % self.slots, self.slots]);
            let any = self.random.below(self.nodes + 2);
            let on_path = if path.is_empty() { any } else { self.random.pick(&path) };
            let node = self.random.pick(&[used, used, last, last, on_path, used ^ 1, any, self.nodes]);
            let near = call.frame ^ 1 << self.random.below(64);
            let frame = self.random.pick(&[call.frame, near, near, near]);
            write_head(&mut self.lent.heads, head, [state, slot, node, self.random.below(PLACES), frame]);
        }
    }

    /// Below the bound, mostly.
    fn number(&mut self, bound: u64) -> u64 {
        match self.random.below(8) {
            0 => bound,
            1 => self.odd_word(),
            _ => self.random.below(bound),
        }
    }

    /// A wrong length, or one that another buffer has.
    pub fn length(&mut self) {
        let random = &mut *self.random;
        let lent = &mut *self.lent;
        let (buffer, right) = match random.below(4) {
            0 => (&mut lent.image, image_words(self.slots, self.nodes)),
            1 => (&mut lent.map, map_words(self.nodes)),
            2 => (&mut lent.scratch, map_words(self.nodes)),
            _ => (&mut lent.script, SCRIPT_WORDS as u64),
        };
        let few = random.below(HEADER_WORDS + 2);
        let length = random.pick(&[right - 1, right - 1, right + 1, right + 80, right.saturating_sub(80), few, 0]);
        buffer.resize(length as usize, || random.word());
    }

    /// A second image and a scratch map of any contents. Now and then one has another length, or both.
    pub fn copy(&mut self) {
        let random = &mut *self.random;
        let (right, few) = (self.lent.image.len() as u64, random.below(HEADER_WORDS + 2));
        let others = [right.saturating_sub(1), right + 1, right + 1, right + NODE_WORDS, right.saturating_sub(NODE_WORDS), few];
        let length = if random.one_in(6) { random.pick(&others) } else { right };
        let kind = random.below(6);
        let word = |index: usize| match kind {
            0 => 0,
            1 => self.lent.image.get(index).copied().unwrap_or(0),
            _ => random.word(),
        };
        self.lent.copy = Buffer::of((0..length as usize).map(word));
        let length = self.lent.scratch.len();
        let length = if self.random.one_in(8) { self.random.pick(&[0, length + 1, length + 2]) } else { length };
        self.lent.scratch = Buffer::of((0..length).map(|_| self.random.word()));
    }

    /// Another R or N: any, or such that the length would be right but for their ranges.
    pub fn header(&mut self, call: &mut Call) {
        let (slots, nodes) = (self.slots, self.nodes);
        let right = image_words(slots, nodes);
        let (slots, nodes, length) = match self.random.below(8) {
            0 => (slots + 40, nodes - 1, right),
            1 => (0, nodes, image_words(0, nodes)),
            2 => (slots, 0, image_words(slots, 0)),
            3 => (MAX_SLOTS + 1, nodes, image_words(MAX_SLOTS + 1, nodes)),
            4 => (slots + (1 << 63), nodes, right),
            5 => (slots, nodes + (1 << 60), right),
            6 => (self.odd_word(), nodes, right),
            _ => (slots, self.odd_word(), right),
        };
        let random = &mut *self.random;
        self.lent.image.resize(length as usize, || random.word());
        self.lent.image[1..3].copy_from_slice(&[slots, nodes]);
        (call.slots, call.nodes) = (slots, nodes);
    }

    /// An unknown edition: 0, 3, one that is 1 or 2 but for a higher bit, or any.
    pub fn edition(&mut self) {
        self.lent.image[0] = match self.random.below(4) {
            0 => 0,
            1 => 3,
            2 => self.random.between(1, 2) | 1 << self.random.between(2, 63),
            _ => self.odd_word(),
        };
    }

    /// A bad table, mostly in an image of edition 2; now and then a wrong length besides.
    pub fn bad_table(&mut self) {
        if !self.random.one_in(4) {
            self.lent.image[0] = EDITION;
        }
        tables::make_bad(self.random, &mut self.lent.image);
        if self.random.one_in(8) {
            self.length();
        }
    }

    /// A script for Apply: stores, barriers and flushes, one entry of it perhaps wrong, or of odd length.
    pub fn script(&mut self) {
        let length = self.lent.image.len() as u64;
        let count = self.random.below(8);
        let header = self.random.one_in(4);
        let mut entries: Vec<Entry> = (0..count).map(|_| self.entry(if header { 0 } else { HEADER_WORDS }, length)).collect();
        let value = self.random.between(1, u64::MAX);
        let wrong = match self.random.below(6) {
            0 => Some((u64::MAX, value)),
            1 => Some((length + self.random.below(2), value)),
            2 => Some(((1 << self.random.between(60, 63)) + self.random.below(length), value)),
            _ => None,
        };
        if let Some(entry) = wrong {
            entries.insert(self.random.below(count + 1) as usize, entry);
        }
        let words: Vec<u64> = entries.iter().flat_map(|entry| [entry.0, entry.1]).collect();
        let odd = u64::from(self.random.one_in(8));
        let random = &mut *self.random;
        self.lent.script.resize(words.len() + odd as usize, || random.word());
        self.lent.script[..words.len()].copy_from_slice(&words);
    }

    /// A line of the image, one just behind it, or any.
    fn line(&mut self, length: u64) -> u64 {
        let lines = (length + LINE_WORDS - 1) / LINE_WORDS;
        match self.random.below(4) {
            0 => lines,
            1 => self.odd_word(),
            _ => self.random.below(lines.max(1)),
        }
    }

    fn entry(&mut self, from: u64, length: u64) -> Entry {
        if self.random.one_in(8) {
            return (FLUSH, self.line(length));
        }
        if self.random.one_in(4) || from >= length {
            return BARRIER;
        }
        let index = if from == 0 { self.random.below(HEADER_WORDS.min(length)) } else { self.random.between(from, length - 1) };
        (index, self.odd_word())
    }
}
