//! Images of either edition, with our table or their own, built word by word: sound trees of every depth and fullness, and chains
//! down to level 31 in a small pool.
use crate::model::buffer::Buffer;
use crate::model::image::*;
use crate::model::node::*;
use crate::model::rule::{Rule, RULES};
use crate::model::table::Reels;
use crate::plan::DEEP_NODES;
use crate::random::Random;
use crate::tables;
use std::collections::HashSet;

/// An image with the map of the nodes that its trees use, and the frames that its reels hold.
pub struct Built {
    pub image: Buffer,
    pub map: Buffer,
    pub slots: u64,
    pub nodes: u64,
    pub reels: Reels,
}

/// What the trees are to have: a rule, reel numbers to choose from, or else any, depths, and the nodes they may still take, all
/// one behind the other or not.
struct Aim<'a> {
    rule: Rule,
    reels: &'a [u64],
    depths: &'a [u64],
    nodes: u64,
    dense: bool,
}

#[derive(Clone, Copy)]
enum Fill {
    Empty,
    /// A place in some of the nodes, none in most.
    Few,
    Sparse,
    Dense,
    Full,
}

/// The locate word beside a set word: every place wanted taken, as the set word, with more bits, any, or all places but one;
/// every place wanted, one of which is filled and not committed; or in some nodes none, in some a place more.
#[derive(Clone, Copy)]
enum Locate {
    Wanted,
    Equal,
    More,
    Any,
    AllButOne,
    Filled,
    NoneOrMore,
}

/// A tree's plan: a path that it follows down to a depth, or every second node, how full its nodes are, and the frames held so
/// far.
struct Plan {
    target: u64,
    depth: u64,
    bushy: bool,
    fill: Fill,
    locate: Locate,
    held: HashSet<u64>,
}

const FILLS: [Fill; 6] = [Fill::Empty, Fill::Sparse, Fill::Dense, Fill::Full, Fill::Full, Fill::Full];
const LOCATES: [Locate; 8] =
    [Locate::Wanted, Locate::Wanted, Locate::Wanted, Locate::Equal, Locate::More, Locate::Any, Locate::AllButOne, Locate::Filled];

/// Of trees in which many groups are empty, and many not by one word of a child.
const FEW_FILLS: [Fill; 4] = [Fill::Empty, Fill::Few, Fill::Few, Fill::Few];
const FEW_LOCATES: [Locate; 3] = [Locate::Equal, Locate::NoneOrMore, Locate::NoneOrMore];

struct Builder<'a> {
    random: &'a mut Random,
    aim: Aim<'a>,
    words: Vec<u64>,
    map: Vec<u64>,
    slots: u64,
    nodes: u64,
    reels: Reels,
}

pub fn build(random: &mut Random) -> Built {
    let chain = random.one_in(7);
    let deep = !chain && random.one_in(40);
    let (slots, nodes) = match (chain, deep) {
        (true, _) => (random.between(1, 3), random.between(35, 44)),
        (_, true) => (1, random.between(DEEP_NODES, DEEP_NODES + 12)),
        _ => geometry(random),
    };
    let depths: &[u64] = if deep { &[LAST_LEVEL] } else { &[0, 0, 0, 1, 2, 3, 4, 6, LAST_LEVEL] };
    let aim = Aim { rule: random.pick(&RULES), reels: &[], depths, nodes, dense: deep };
    let mut builder = Builder::new(random, aim, slots, nodes);
    if chain {
        builder.chain();
    } else {
        builder.trees();
    }
    builder.built()
}

/// A sound image that goes by this rule. Most reels have these numbers and the trees these depths; without any they are bushy and
/// take what they can. Else mostly nodes are left.
pub fn found(random: &mut Random, rule: Rule, (slots, nodes): (u64, u64), reels: &[u64], depths: &[u64]) -> Built {
    let most = if depths.is_empty() || random.one_in(8) { nodes } else { random.between(1, 10) };
    let aim = Aim { rule, reels, depths, nodes: most, dense: false };
    let mut builder = Builder::new(random, aim, slots, nodes);
    builder.trees();
    builder.built()
}

/// Mostly small; now and then of several map words, seldom large, and very seldom the largest.
fn geometry(random: &mut Random) -> (u64, u64) {
    match random.below(1 << 16) {
        0..=2 => (MAX_SLOTS, MAX_NODES),
        3..=31 => (random.between(1, MAX_SLOTS), random.between(1, 2000)),
        32..=8191 => (random.between(1, 5), random.between(60, 200)),
        8192..=32767 => (random.between(1, 5), random.between(1, 8)),
        _ => (random.between(1, 5), random.between(1, 40)),
    }
}

fn low_bits(word: u64, bits: u64) -> u64 {
    word & ((1 << bits) - 1)
}

impl<'a> Builder<'a> {
    /// No reel yet. What is not read is zero or stale.
    fn new(random: &'a mut Random, aim: Aim<'a>, slots: u64, nodes: u64) -> Builder<'a> {
        let stale = random.one_in(2);
        let mut words: Vec<u64> = (0..image_words(slots, nodes)).map(|_| if stale { random.word() } else { 0 }).collect();
        words[..3].copy_from_slice(&[aim.rule.edition(), slots, nodes]);
        tables::write(random, &mut words, aim.rule);
        for slot in 0..slots {
            words[slot_index(slot) as usize + 1] = 0;
        }
        Builder { random, aim, words, map: vec![0; map_words(nodes) as usize], slots, nodes, reels: Reels::new() }
    }

    fn built(self) -> Built {
        let (image, map) = (Buffer::of(self.words), Buffer::of(self.map));
        Built { image, map, slots: self.slots, nodes: self.nodes, reels: self.reels }
    }

    fn store(&mut self, index: u64, value: u64) {
        self.words[index as usize] = value;
    }

    fn reel(&mut self, slot: u64) -> u64 {
        if !self.aim.reels.is_empty() && !self.random.one_in(8) {
            return self.random.pick(self.aim.reels);
        }
        if self.random.one_in(2) {
            slot
        } else {
            self.random.odd_word(&[7])
        }
    }

    fn plan(&mut self) -> Plan {
        let target = if self.random.one_in(2) { 0 } else { self.random.word() };
        let bushy = self.aim.depths.is_empty() || self.random.one_in(4) && !self.aim.dense;
        let depth = if bushy { self.random.between(1, 5) } else { self.random.pick(self.aim.depths) };
        let (fill, locate) = if bushy || self.aim.dense {
            (self.random.pick(&FEW_FILLS), self.random.pick(&FEW_LOCATES))
        } else {
            (self.random.pick(&FILLS), self.random.pick(&LOCATES))
        };
        Plan { target, depth, bushy, fill, locate, held: HashSet::new() }
    }

    /// A tree for most of the slots, or for some of many, as long as the pool lasts.
    fn trees(&mut self) {
        let many = self.slots > 64;
        for slot in 0..self.slots.min(64) {
            let slot = if many { self.random.below(self.slots) } else { slot };
            let reel = self.reel(slot);
            let taken = self.words[slot_index(slot) as usize + 1] != 0;
            if self.random.one_in(4) || taken || self.reels.contains_key(&reel) {
                continue;
            }
            if let Some(root) = self.take(1) {
                self.store(slot_index(slot), reel);
                self.store(slot_index(slot) + 1, root + 1);
                let mut plan = self.plan();
                self.grow(root, 0, 0, &mut plan);
                self.reels.insert(reel, plan.held.into_iter().collect());
            }
        }
    }

    /// The first of adjacent free nodes: the lowest ones, or those after a random node.
    fn take(&mut self, count: u64) -> Option<u64> {
        let from = if self.aim.dense || self.random.one_in(2) { 0 } else { self.random.below(self.nodes) };
        let free = |first: u64| first + count <= self.nodes && (first..first + count).all(|node| !is_used(&self.map, node));
        let first = (from..self.nodes).find(|&first| free(first) && count <= self.aim.nodes)?;
        self.aim.nodes -= count;
        (first..first + count).for_each(|node| mark_used(&mut self.map, node));
        Some(first)
    }

    /// A node and the subtree below it; `prefix` has the low bits of the frames that come by here.
    fn grow(&mut self, number: u64, level: u64, prefix: u64, plan: &mut Plan) {
        let on_target = prefix == low_bits(plan.target, path_bits(level));
        let size = if level == 0 && plan.depth == 0 { self.random.pick(&[16, 32, 64]) } else { 64 };
        self.node(number, level, size, prefix, plan);
        let grows = match plan.bushy {
            true => level < plan.depth && (level == 0 || self.random.one_in(2)),
            false if on_target => level < plan.depth,
            false => self.random.one_in(12),
        };
        if size < 64 || level == LAST_LEVEL || !grows {
            return;
        }
        if let Some(first) = self.take(children(level)) {
            self.store(node_index(self.slots, number) + NEXT, first + 1);
            let target = child(level, plan.target);
            // The child on the target path first: the pool may not last for all.
            let others = (0..children(level)).filter(|&step| step != target);
            for step in std::iter::once(target).chain(others) {
                self.grow(first + step, level + 1, prefix | step << path_bits(level), plan);
            }
        }
    }

    /// A path down to level 31 or near it in few nodes: groups of children overlap, which the operations on a path do not see.
    fn chain(&mut self) {
        let mut plan = self.plan();
        plan.depth = self.random.pick(&[4, 12, 29, 30, 30, 30, LAST_LEVEL, LAST_LEVEL, LAST_LEVEL]);
        let slot = self.random.below(self.slots);
        self.store(slot_index(slot), 7);
        self.store(slot_index(slot) + 1, 1);
        plan.fill = Fill::Full;
        for level in 0..=plan.depth {
            self.node(level, level, 64, low_bits(plan.target, path_bits(level)), &mut plan);
            mark_used(&mut self.map, level);
            // Level 31 has no children; now and then they are there all the same.
            if level < plan.depth || level == LAST_LEVEL && self.random.one_in(4) {
                self.store(node_index(self.slots, level) + NEXT, level + 2 - child(level, plan.target));
            }
        }
    }

    /// One node without children, its held frames on their path, each once in its reel.
    fn node(&mut self, number: u64, level: u64, size: u64, prefix: u64, plan: &mut Plan) {
        let at = node_index(self.slots, number);
        let mask = if size == 64 { u64::MAX } else { (1 << size) - 1 };
        let fill = if self.random.one_in(100) { self.random.pick(&FILLS) } else { plan.fill };
        let wanted = match fill {
            Fill::Empty => 0,
            Fill::Few => u64::from(self.random.one_in(5)) << self.random.below(PLACES),
            Fill::Sparse => self.random.word() & self.random.word() & self.random.word(),
            Fill::Dense => self.random.word() | self.random.word(),
            Fill::Full => u64::MAX,
        } & mask;
        let last = if matches!(plan.locate, Locate::Filled) { wanted.leading_zeros() } else { 64 };
        let filled = 63u64.checked_sub(u64::from(last));
        let (mut set, mut frame) = (0, prefix);
        for place in (0..PLACES).filter(|place| wanted >> place & 1 == 1) {
            frame = self.frame(prefix, path_bits(level), frame);
            self.place(at, place, frame);
            let held = Some(place) != filled && plan.held.insert(frame);
            set |= u64::from(held) << place;
        }
        let locate = match plan.locate {
            Locate::Wanted | Locate::Filled => wanted,
            Locate::Equal => set,
            Locate::More => set | self.random.word() & mask,
            Locate::Any => self.random.word() & mask,
            Locate::NoneOrMore => match self.random.below(8) {
                0 => set ^ 1 << self.random.below(size),
                1..=4 => 0,
                _ => set,
            },
            Locate::AllButOne => {
                let any = self.random.below(size);
                mask & !(1 << self.random.pick(&[any, size - 1]))
            }
        };
        for (word, value) in [(NEXT, 0), (LOCATE, locate), (SET, set), (LEVEL_AT, level), (SIZE_AT, size)] {
            self.store(at + word, value);
        }
    }

    /// A frame with its fingerprint.
    fn place(&mut self, at: u64, place: u64, frame: u64) {
        let index = at + FINGERPRINTS + place / 8;
        let prints = with_byte(self.words[index as usize], place % 8, self.aim.rule.fingerprint(&self.words, frame));
        self.store(index, prints);
        self.store(at + FRAMES + place, frame);
    }

    /// A frame with these low bits; now and then it has the lower half of the last one, and in edition 1 its fingerprint.
    fn frame(&mut self, prefix: u64, bits: u64, last: u64) -> u64 {
        if bits <= 32 && self.random.one_in(4) {
            return self.random.with_upper_half(last);
        }
        let rest = if self.random.one_in(3) { self.random.below(100) } else { self.random.word() };
        prefix | rest << bits
    }
}
