//! Directed histories: a tree grows down to level 4 on one way and to level 2 on another, a second one to the brim of its root;
//! reels without a frame take the nodes that are left. Frames go from below, and the groups that are then empty are given back
//! one after the other, with claims open in the other tree too. Claims that find no run are made again after it.
use crate::directed::ANY;
use crate::groups::CUT_CLAIM;
use crate::history::History;
use crate::model::call::Function::*;
use crate::model::image::{Image, HEADS};
use crate::model::loads::BRIM;
use crate::model::node::{path_bits, NEXT};
use crate::model::table::Head;
use crate::model::tidy::Group;
use crate::model::tree;
use std::collections::HashSet;

/// Frames that agree in the bits to a node of this level fill the nodes down to it one after the other, and then branch it out.
const LEVEL: u64 = 3;
const DEEP: u64 = (LEVEL + 1) * BRIM + 1;
/// The first child's way at each of these levels; and the other way from the root.
const FIRST_WAY: (u64, u64) = (path_bits(LEVEL), 0);
const SECOND_WAY: (u64, u64) = (path_bits(1), 1);
/// With a node full on the other way, and one frame below it.
const BOTH: u64 = DEEP + BRIM + 1;

const ROUNDS: u64 = 5;

/// So often a frame is drawn for a claim that is to have a certain end.
const TRIES: u64 = 24;

/// A node with children, whether one of these has any, and the frames held below it.
struct Below {
    parent: u64,
    level: u64,
    ends: bool,
    frames: Vec<u64>,
}

impl History<'_> {
    pub fn flood_and_ebb(&mut self) -> Result<(), String> {
        let (deep, other) = (self.plan.reels[0], self.plan.reels[1]);
        self.give_back()?;
        self.open_anew(deep, &[])?;
        self.open_anew(other, &[deep])?;
        if self.flood(deep, FIRST_WAY, DEEP)? && self.flood(other, FIRST_WAY, BRIM)? {
            for claims in 0..=HEADS {
                self.tidy_beside(deep, other, claims)?;
            }
        }
        if self.flood(deep, SECOND_WAY, BOTH)? {
            self.empty_ends(deep)?;
            self.give_back()?;
        }
        for _ in 0..ROUNDS {
            if self.random.one_in(3) && self.carry(Convert, 0, 0, 0)? == 0 {
                self.go_on_with_copy()?;
            }
            if self.flood(deep, FIRST_WAY, DEEP)? && self.flood(other, FIRST_WAY, BRIM)? {
                let (hungry, giving) = self.random.pick(&[(deep, other), (other, deep)]);
                self.round(hungry, giving)?;
            }
        }
        self.check_book()
    }

    /// Frames are added to one of the two reels until it holds so many. False if there are no nodes for them, though all other
    /// reels have gone: what was there before may have taken such as lie badly.
    fn flood(&mut self, reel: u64, way: (u64, u64), frames: u64) -> Result<bool, String> {
        let both = [self.plan.reels[0], self.plan.reels[1]];
        while self.held(reel) < frames {
            let frame = self.fresh(reel, way);
            match self.carry(Claim, 0, reel, frame)? {
                0 => self.settle(0, true)?,
                8 if self.retire_another(&both)? => (),
                8 => return Ok(false),
                answer => return Err(format!("a claim of a head that works alone is answered with {}", answer)),
            }
        }
        Ok(true)
    }

    /// A head comes to be idle again, its frame held or not.
    fn settle(&mut self, head: u64, held: bool) -> Result<(), String> {
        match self.table.heads[head as usize] {
            Head::Idle => return Ok(()),
            Head::Claimed { .. } if held => self.done(Fill, head, 0, 0)?,
            _ => (),
        }
        self.done(if held { Commit } else { Abandon }, head, 0, 0)
    }

    /// A claim that branches out, if it finds a run, and is given back.
    fn leave_group(&mut self, reel: u64) -> Result<(), String> {
        let frame = self.fresh(reel, FIRST_WAY);
        self.carry(Claim, 0, reel, frame)?;
        self.settle(0, false)
    }

    /// With so many claims open in the deep tree, each in one of the children of the same node, the other one's group is given
    /// back, and power fails in that.
    fn tidy_beside(&mut self, deep: u64, other: u64, claims: u64) -> Result<(), String> {
        if !self.has_group(other) {
            self.leave_group(other)?;
        }
        let mut tries = 0;
        while self.table.claims() < claims && tries < TRIES {
            let (head, frame) = (self.table.claims(), self.fresh(deep, FIRST_WAY));
            self.carry(Claim, head, deep, frame)?;
            tries += 1;
        }
        self.cut(Tidy, 0, other, 0)?;
        Ok(())
    }

    /// One tree loses its lowest groups, the other the frames in some. Reels without a frame take nearly all nodes. A claim in
    /// the first tree finds no run, until the second gives a group back.
    fn round(&mut self, hungry: u64, giving: u64) -> Result<(), String> {
        self.starve(hungry)?;
        self.cut_branch_out(hungry)?;
        self.grow(giving)?;
        self.ebb(giving)?;
        self.take_all_nodes()?;
        for _ in 0..self.random.below(4) {
            self.retire_another(&[hungry, giving])?;
        }
        self.claim_without_run(hungry)?;
        for head in 0..HEADS {
            let held = self.random.one_in(2);
            self.settle(head, held)?;
        }
        self.give_back()
    }

    /// Every empty group of every reel, one after the other.
    fn give_back(&mut self) -> Result<(), String> {
        while let Some(&reel) = self.reels_with_groups().first() {
            self.carry_or_cut(Tidy, reel)?;
        }
        Ok(())
    }

    /// All groups are emptied whose nodes have no children.
    fn empty_ends(&mut self, reel: u64) -> Result<(), String> {
        let below = self.below(reel)?;
        below.iter().filter(|below| below.ends).try_for_each(|below| self.remove_all(reel, &below.frames))
    }

    /// What is below the nodes of a reel that have children.
    fn below(&self, reel: u64) -> Result<Vec<Below>, String> {
        let image = Image::of(&self.lent.image);
        let root = image.slot_of(reel).map_or(0, |slot| image.root(slot));
        let walk = image.walk(root, &mut HashSet::new()).map_err(|refusal| refusal.shape.to_string())?;
        let groups = walk.iter().filter_map(|above| Group::of(above).map(|group| (&above.steps, group)));
        let below = |(above, group): (&Vec<u64>, Group)| {
            let nodes = walk.iter().filter(|reached| reached.steps.len() > above.len() && reached.steps.starts_with(above));
            let frames = nodes.flat_map(|reached| tree::frames(std::slice::from_ref(reached))).collect();
            let ends = group.children.iter().all(|child| child.word(NEXT) == 0);
            Below { parent: group.parent.number, level: group.level, ends, frames }
        };
        Ok(groups.map(below).collect())
    }

    /// All frames go that are held below the full nodes on the way of the reel's frames, and then the groups there.
    fn starve(&mut self, reel: u64) -> Result<(), String> {
        let last = self.last_full(&self.call(Claim, 0, reel, 0))?;
        for below in self.below(reel)?.iter().filter(|below| Some(below.parent) == last) {
            self.remove_all(reel, &below.frames)?;
        }
        while self.has_group(reel) {
            self.carry_or_cut(Tidy, reel)?;
        }
        Ok(())
    }

    fn remove_all(&mut self, reel: u64, frames: &[u64]) -> Result<(), String> {
        frames.iter().try_for_each(|&frame| self.done(Remove, 0, reel, frame))
    }

    /// Claims that branch out are cut short, until one has left a group, which is given back.
    fn cut_branch_out(&mut self, reel: u64) -> Result<(), String> {
        for _ in 0..TRIES {
            let frame = self.fresh(reel, FIRST_WAY);
            if self.due(&self.call(Claim, 0, reel, frame)).0 != 0 {
                return Ok(());
            }
            self.cut(Claim, 0, reel, frame)?;
            if self.has_group(reel) {
                self.carry_or_cut(Tidy, reel)?;
                self.coverage.groups.history(CUT_CLAIM);
                return Ok(());
            }
        }
        Ok(())
    }

    /// Some frames more, while there are nodes.
    fn grow(&mut self, reel: u64) -> Result<(), String> {
        for _ in 0..self.random.below(16) {
            let way = self.random.pick(&[ANY, FIRST_WAY]);
            let frame = self.fresh(reel, way);
            self.carry(Claim, 0, reel, frame)?;
            let held = !self.random.one_in(8);
            self.settle(0, held)?;
        }
        Ok(())
    }

    /// All frames go that are held below a node, one of the lowest with children or any; now and then one stays.
    fn ebb(&mut self, reel: u64) -> Result<(), String> {
        let mut below = self.below(reel)?;
        let lowest = below.iter().map(|below| below.level).max();
        if !self.random.one_in(3) {
            below.retain(|below| Some(below.level) == lowest);
        }
        if below.is_empty() {
            return self.leave_group(reel);
        }
        let number = self.random.below(below.len() as u64) as usize;
        let left = usize::from(self.random.one_in(4)).min(below[number].frames.len());
        self.remove_all(reel, &below[number].frames[left..])
    }

    /// A claim that is refused 8, if one is found, and made again after tidy.
    fn claim_without_run(&mut self, reel: u64) -> Result<(), String> {
        for _ in 0..TRIES {
            let (head, frame) = (self.random.below(HEADS), self.fresh(reel, FIRST_WAY));
            let claim = self.call(Claim, head, reel, frame);
            if self.due(&claim).0 == 8 {
                self.carry(Claim, head, reel, frame)?;
                return self.claim_again(&claim);
            }
        }
        Ok(())
    }
}
