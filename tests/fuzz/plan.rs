//! What a history does: its geometry, and how its calls are drawn.
use crate::model::call::{Call, Function, Function::*};
use crate::model::image::HEADS;
use crate::model::node::{path_bits, LAST_LEVEL, PLACES};
use crate::model::table::{Head, Table};
use crate::random::Random;

/// Frames from a small range, all with the same low bits, and one of three upper halves; or such as lead down a path to level 31.
enum Frames {
    Few { bound: u64, shift: u64, uppers: [u64; 3] },
    Deep { target: u64 },
}

pub struct Plan {
    pub slots: u64,
    pub nodes: u64,
    pub steps: u64,
    /// One step in this many is crashed, and the book read whole as often.
    pub crash: u64,
    /// A crash is tried at every moment of its script; in Tidy always.
    pub every_moment: bool,
    /// All mixtures that a crash can leave are tried up to this many; of more, some.
    pub mixtures: u64,
    /// One step in this many is another operation than the head's next.
    other: u64,
    /// Idle heads claim before others commit: all have a claim open at times.
    together: bool,
    /// Those claims are in the first reel, from so many frames in it on: till then one head works alone. Else each is in a reel
    /// of its own where one is left.
    one_tree: Option<u64>,
    /// It begins with a reel that is filled to the brim of its root, and beyond.
    pub brim: bool,
    /// It begins with a pool that runs out, trees that are emptied from below, and groups that are given back.
    pub ebb: bool,
    others: &'static [Function],
    /// The depths of the trees that it starts with, where it starts on an image that has some; none for bushy ones.
    pub depths: &'static [u64],
    pub reels: Vec<u64>,
    frames: Frames,
}

const OTHERS: [Function; 29] = [
    Open, Open, Open, Open, Open, Open, Remove, Remove, Remove, Remove, Has, Has, List, List, Retire, Retire, Claim, Fill,
    Commit, Abandon, Abandon, Abandon, Abandon, Recover, Format, Convert, Convert, Tidy, Tidy,
];
const OTHERS_DEEP: [Function; 10] = [Open, Remove, Remove, Has, List, Abandon, Claim, Recover, Convert, Tidy];

const OTHERS_BESIDE: [Function; 10] = [Open, Open, Remove, Remove, Remove, Retire, Abandon, Recover, Convert, Tidy];

const REELS: [u64; 7] = [u64::MAX, 0, 7, 8, 9, 10, 11];

const DEPTHS: [u64; 7] = [0, 0, 0, 1, 1, 2, 3];

/// A path to level 31 needs its root, three groups of two and 28 of four.
pub const DEEP_NODES: u64 = 1 + 3 * 2 + 28 * 4;

/// In two of three histories frames share their lower halves. High frames have none to share.
fn few_frames(random: &mut Random, bounds: &[u64], shifts: &[u64]) -> Frames {
    let (bound, shift) = (random.pick(bounds), random.pick(shifts));
    let shared = !random.one_in(3) && shift < 32;
    let uppers = [(); 3].map(|_| if shared { random.with_upper_half(0) } else { 0 });
    Frames::Few { bound, shift, uppers }
}

impl Plan {
    pub fn draw(random: &mut Random) -> Plan {
        match random.below(44) {
            0 => Plan::deep(random),
            1..=12 => Plan::growing(random),
            13..=19 => Plan::one_tree(random),
            20..=26 => Plan::together(random),
            27 | 28 => Plan::brim(random),
            29..=32 => Plan::ebb(random),
            _ => Plan::few(random),
        }
    }

    /// Few frames, many operations of every kind.
    fn few(random: &mut Random) -> Plan {
        let slots = random.between(1, 5);
        let most = random.pick(&[4, 12, 40, 70]);
        Plan {
            slots,
            nodes: random.between(1, most),
            steps: random.pick(&[60, 300, 1000]),
            crash: random.pick(&[8, 24, 100]),
            every_moment: true,
            mixtures: 256,
            other: random.pick(&[2, 6, 40]),
            together: false,
            one_tree: None,
            brim: false,
            ebb: false,
            others: &OTHERS,
            depths: &DEPTHS,
            reels: REELS[..slots as usize + 2].to_vec(),
            frames: few_frames(random, &[4, 30, 200], &[0, 0, 0, 1, 3, 20, 57]),
        }
    }

    /// The same with a reel for each head and one more, and all heads at work.
    fn together(random: &mut Random) -> Plan {
        let few = Plan::few(random);
        let slots = HEADS + 1;
        let reels = REELS[..slots as usize + 2].to_vec();
        Plan { slots, nodes: few.nodes + slots, steps: 600, crash: 24, other: 4, together: true, reels, ..few }
    }

    /// More frames than a root holds, few of which go.
    fn growing(random: &mut Random) -> Plan {
        let slots = random.pick(&[1, 2, HEADS]);
        let most = random.pick(&[5, 30, 30]);
        Plan {
            slots,
            nodes: random.between(1, most),
            steps: 1200,
            crash: 100,
            every_moment: true,
            mixtures: 16,
            other: 60,
            together: slots == HEADS,
            one_tree: None,
            brim: false,
            ebb: false,
            others: &OTHERS,
            depths: &DEPTHS,
            reels: (7..7 + slots.max(2)).collect(),
            frames: few_frames(random, &[10_000], &[0, 3]),
        }
    }

    /// To the brim of a root, with a slot more than there are nodes, so that reels can take all of these.
    fn brim(random: &mut Random) -> Plan {
        let nodes = random.between(5, 12);
        let slots = nodes + 1;
        let reels = (7..7 + slots + 2).collect();
        Plan { slots, nodes, steps: 60, crash: 24, mixtures: 16, brim: true, reels, ..Plan::few(random) }
    }

    /// A tree that takes 13 nodes, one beside it that takes three, and few nodes more, for each of which there is a slot.
    fn ebb(random: &mut Random) -> Plan {
        let (slots, nodes) = (8, random.between(18, 22));
        let reels = (7..7 + slots + 2).collect();
        let few = Plan::few(random);
        Plan { slots, nodes, steps: 60, crash: 24, every_moment: false, mixtures: 8, ebb: true, depths: &[], reels, ..few }
    }

    /// All heads at work in one tree, with nodes for several of them: below the root, of level 2, or below a path to level 3.
    /// Other reels come and go beside it.
    fn one_tree(random: &mut Random) -> Plan {
        let (shift, alone) = random.pick(&[(0, 60), (0, 210), (0, 210), (3, 250)]);
        Plan {
            slots: 3,
            nodes: random.between(9, 40),
            steps: 3 * alone + 1000,
            crash: 400,
            every_moment: true,
            mixtures: 8,
            other: 8,
            together: true,
            one_tree: Some(alone),
            brim: false,
            ebb: false,
            others: &OTHERS_BESIDE,
            depths: &DEPTHS,
            reels: vec![7, 8, 9],
            frames: few_frames(random, &[10_000], &[shift]),
        }
    }

    /// Down to level 31.
    fn deep(random: &mut Random) -> Plan {
        Plan {
            slots: random.between(1, 2),
            nodes: random.between(DEEP_NODES, DEEP_NODES + 12),
            steps: 7800,
            crash: 1000,
            every_moment: false,
            mixtures: 8,
            other: 30,
            together: false,
            one_tree: None,
            brim: false,
            ebb: false,
            others: &OTHERS_DEEP,
            depths: &[0],
            reels: vec![0],
            frames: Frames::Deep { target: random.word() },
        }
    }

    pub fn call(&self, random: &mut Random, table: &Table) -> Call {
        let head = if random.one_in(60) { random.odd_word(&[HEADS]) } else { self.head(random, table) };
        let function = self.function(random, table, head);
        let reel = self.reel_for(random, table, function);
        let frame = self.frame(random, table, reel, head);
        let held = table.reels.get(&reel).and_then(|frames| frames.range(frame..).next());
        let claimed = table.heads[random.below(HEADS) as usize].about();
        let frame = match (held, claimed) {
            (Some(&held), _) if matches!(function, Remove | Has) && random.one_in(2) => held,
            (Some(&held), _) if function == Claim && random.one_in(50) => held,
            (_, Some((about, claimed))) if function == Claim && about == reel && random.one_in(10) => claimed,
            _ => frame,
        };
        Call { function, slots: table.slots, nodes: table.nodes, head, reel, frame, words: 0 }
    }

    /// A head that is under way, mostly, or an idle one; where heads work together the other way round.
    fn head(&self, random: &mut Random, table: &Table) -> u64 {
        if self.alone(table) {
            return 0;
        }
        // In one tree claims are often refused, and the others have to go on.
        let idle = if self.one_tree.is_some() { !random.one_in(4) } else { self.together };
        let wanted: Vec<u64> = (0..HEADS).filter(|&head| (table.heads[head as usize] == Head::Idle) == idle).collect();
        if wanted.is_empty() || random.one_in(4) {
            random.below(HEADS)
        } else if self.one_tree.is_some() {
            random.pick(&wanted)
        } else {
            wanted[0]
        }
    }

    /// Is the one tree still too small for several heads?
    fn alone(&self, table: &Table) -> bool {
        let frames = table.reels.get(&self.reels[0]).map_or(0, |frames| frames.len() as u64);
        self.one_tree.map_or(false, |least| frames < least)
    }

    fn reel_for(&self, random: &mut Random, table: &Table, function: Function) -> u64 {
        match function {
            Open if self.one_tree.is_some() && !table.reels.contains_key(&self.reels[0]) => return self.reels[0],
            Claim if self.one_tree.is_some() && !random.one_in(6) => return self.reels[0],
            // What takes a tree away, or needs it quiet, is for the others.
            Open | Remove | Retire | Tidy if self.one_tree.is_some() && !random.one_in(6) => {
                return random.pick(&self.reels[1..])
            }
            _ => (),
        }
        let among = match function {
            Open if self.together => Vec::new(),
            Claim | Remove | Retire | Tidy if self.together && !random.one_in(4) => table.quiet_reels(),
            _ => table.reels.keys().copied().collect(),
        };
        self.reel(random, &among)
    }

    /// Mostly one of these, the lower ones more often, so that they grow.
    fn reel(&self, random: &mut Random, among: &[u64]) -> u64 {
        let count = among.len() as u64;
        if count == 0 || random.one_in(6) {
            return random.pick(&self.reels);
        }
        among[random.below(count).min(random.below(count)) as usize]
    }

    fn function(&self, random: &mut Random, table: &Table, head: u64) -> Function {
        let slots_left = (table.reels.len() as u64) < table.slots;
        if table.reels.is_empty() || self.together && slots_left && random.one_in(8) {
            return Open;
        }
        if self.one_tree.is_some() && !table.reels.contains_key(&self.reels[0]) && random.one_in(2) {
            return if slots_left { Open } else { Retire };
        }
        // All heads in one tree are seldom: then there are more of the others.
        let all = self.one_tree.is_some() && table.claims_in(self.reels[0]) == HEADS;
        if !self.alone(table) && random.one_in(if all { 2 } else { self.other }) {
            return random.pick(self.others);
        }
        match table.heads.get(head as usize) {
            Some(Head::Claimed { .. }) => Fill,
            Some(Head::Filled { .. }) => Commit,
            Some(Head::Idle) => Claim,
            None => random.pick(&[Claim, Fill, Commit, Abandon]),
        }
    }

    fn frame(&self, random: &mut Random, table: &Table, reel: u64, head: u64) -> u64 {
        match self.frames {
            Frames::Few { .. } if random.one_in(60) => random.word(),
            // In one tree heads mostly go ways of their own.
            Frames::Few { bound, shift, uppers } if self.one_tree.is_some() && !random.one_in(4) && !self.alone(table) => {
                (HEADS * random.below(bound) + head % HEADS) << shift | random.pick(&uppers)
            }
            Frames::Few { bound, shift, uppers } => random.below(bound) << shift | random.pick(&uppers),
            Frames::Deep { target } => {
                // Every 64 frames fill a node of the path, and the next ones have to agree with it one level further.
                let held = table.reels.get(&reel).map_or(0, |frames| frames.len() as u64);
                let bits = path_bits((held / PLACES).min(LAST_LEVEL));
                target & ((1 << bits) - 1) | random.word() << bits
            }
        }
    }
}
