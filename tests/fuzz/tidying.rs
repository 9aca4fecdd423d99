//! Tidy in histories: what is due to it by the nodes, and claims that are refused 8 before and made again after.
use crate::groups::*;
use crate::history::History;
use crate::model::call::{Call, Function, Handed, Lent};
use crate::model::image::*;
use crate::model::loads::BRIM;
use crate::model::node::{children, Node, LEVEL_AT, LOCATE};
use crate::model::script::{self, Entry, BARRIER};
use crate::model::tidy::{due, Group};

/// The group that a tidy of this reel is to give back.
fn group_in(words: &[u64], reel: u64) -> Option<Group<'_>> {
    let image = Image::of(words);
    image.slot_of(reel).and_then(|slot| due(image, slot))
}

impl History<'_> {
    /// Is there a group to be given back in this reel?
    pub fn has_group(&self, reel: u64) -> bool {
        group_in(&self.lent.image, reel).is_some()
    }

    /// The reels that have one and are not busy.
    pub fn reels_with_groups(&self) -> Vec<u64> {
        self.table.quiet_reels().into_iter().filter(|&reel| self.has_group(reel)).collect()
    }

    /// A tidy gives back the first group exactly if there is one. It writes nothing but script and map if it is answered, and the
    /// scratch map, 0 unless a length is refused. Of the map the book says what is due, when the script is carried out.
    pub fn check_tidy(&mut self, call: &Call, mut before: Lent, handed: &Handed) -> Result<(), String> {
        let answer = handed.answer;
        if !matches!(answer, 1 | 3) {
            before.scratch.fill(0);
        }
        let group = if matches!(answer, 0 | 18) { group_in(&before.image, call.reel) } else { None };
        let store = group.map(|group| group.store());
        match (answer, store) {
            (0, Some(store)) => {
                script::write(&mut before.script, &[store, BARRIER]);
                before.map.clone_from(&self.lent.map);
            }
            (0, None) | (18, Some(_)) => return Err(format!("answer {}, by the nodes {:?}", answer, store)),
            _ => (),
        }
        if answer == 0 && handed.count != 4 {
            return Err(format!("{} words of script", handed.count));
        }
        self.lent.differs(&before).map_or(Ok(()), |name| Err(format!("the {} is not as is due", name)))
    }

    /// The script of a call is carried out. When a group was given back, the book is read whole: frames, nodes and map.
    pub fn carry_out(&mut self, call: &Call, answer: u64, entries: &[Entry]) -> Result<(), String> {
        if call.function != Function::Tidy || answer != 0 {
            return self.apply(entries);
        }
        let group = group_in(&self.lent.image, call.reel);
        let (parent, level) = group.map_or((0, 0), |group| (group.parent.number, group.level));
        self.apply(entries)?;
        self.check_book()?;
        self.tidied(call.reel, parent, level);
        self.ask_reel(call.reel)
    }

    /// Counts what was given back.
    fn tidied(&mut self, reel: u64, parent: u64, level: u64) {
        let held = self.held(reel) > 0;
        let more = self.loads.of(reel).map_or(false, |load| load.most > BRIM);
        let next = group_in(&self.lent.image, reel);
        let nested = next.map_or(false, |group| group.children.iter().any(|child| child.number == parent));
        let kinds = [
            (true, if held { FRAMES_LEFT } else { NO_FRAMES_LEFT }),
            (level > 2, OF_FOUR),
            (level == 0 && more, LONE_AGAIN),
            (nested, NESTED),
        ];
        kinds.iter().filter(|(there, _)| *there).for_each(|&(_, kind)| self.coverage.groups.history(kind));
    }

    /// The nodes on the path of a claim.
    fn path(&self, claim: &Call) -> Result<Vec<Node<'_>>, String> {
        let image = Image::of(&self.lent.image);
        let slot = image.slot_of(claim.reel).ok_or("no such reel")?;
        image.path(image.root(slot), claim.frame).map_err(|refusal| refusal.shape.to_string())
    }

    /// The last of the nodes on its path that are full, from the root on.
    pub fn last_full(&self, claim: &Call) -> Result<Option<u64>, String> {
        let path = self.path(claim)?;
        let full = path.iter().take_while(|node| node.word(LOCATE) == u64::MAX);
        Ok(full.last().map(|node| node.number))
    }

    /// A claim was refused 8. A group is given back, if there is one. Then the same claim is answered exactly if there is a run
    /// of the length that it needed.
    pub fn claim_again(&mut self, claim: &Call) -> Result<(), String> {
        let need = self.path(claim)?.last().map_or(0, |node| children(node.word(LEVEL_AT)));
        let groups = self.reels_with_groups();
        let any = self.random.pick(&self.plan.reels);
        let reel = if groups.is_empty() || self.random.one_in(6) { any } else { self.random.pick(&groups) };
        let map = self.lent.map.clone();
        let given = self.carry(Function::Tidy, 0, reel, 0)?;
        let run = free_run(&self.lent.map, self.table.nodes, need);
        let answer = self.carry(Function::Claim, claim.head, claim.reel, claim.frame)?;
        let kind = match (answer, given, run) {
            (0, 0, Some(first)) => {
                let was_free = |node: u64| !is_used(&map, node);
                if (first..first + need).any(was_free) {
                    ROOM_JOINED
                } else {
                    ROOM
                }
            }
            (8, 0, None) => NO_ROOM,
            (8, 18, None) => NOTHING,
            (8, _, None) => return Ok(()),
            _ => return Err(format!("tidy answers {}, the claim {}, with {:?} for a run of {}", given, answer, run, need)),
        };
        self.coverage.groups.history(kind);
        if answer == 0 && reel != claim.reel {
            self.coverage.groups.history(OTHER_REEL);
        }
        Ok(())
    }
}
