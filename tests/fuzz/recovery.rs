//! Crashes of a history: every image that one can leave is recovered, by recoveries that crash too, and then has the frames, in
//! their places, and the nodes of before or after, with idle heads, the map of the nodes reached and their locate words.
use crate::coverage::Claims;
use crate::crash::Crash;
use crate::history::History;
use crate::model::buffer::Buffer;
use crate::model::call::{Call, Function, Lent};
use crate::model::ending::Ending;
use crate::model::fault::Fault;
use crate::model::image::*;
use crate::model::loads::load;
use crate::model::module::as_far;
use crate::model::node::{Node, LEVEL_AT, LOCATE, PLACES, SET};
use crate::model::operations::check_image;
use crate::model::rule::{Rule, OWN};
use crate::model::script::{carry_out, Entry, BARRIER};
use crate::model::table::{self, Reels, Table};
use crate::model::tree;
use crate::paths::Cut;
use crate::report::reels_differ;
use std::collections::{BTreeSet, HashSet};

const SOME_MIXTURES: u64 = 4;
const MOST_ATTEMPTS: u64 = 3;
/// Without numbers of its own.
const RECOVER: Call = Call { function: Function::Recover, slots: 0, nodes: 0, head: 0, reel: 0, frame: 0, words: 0 };

fn unsound(ending: Ending) -> String {
    format!("the image is not sound: {}", ending.shape)
}

/// An image's reels with their frames, the nodes reached, and where in these the frames are: node, place and frame in the order
/// of List, reel by reel.
#[derive(PartialEq, Eq)]
pub struct Contents {
    pub reels: Reels,
    pub nodes: BTreeSet<u64>,
    pub places: Vec<(u64, u64, u64)>,
}

pub fn contents(words: &[u64]) -> Result<Contents, String> {
    let image = check_image(words, Fault::None).map_err(unsound)?;
    let nodes = image.sound().map_err(unsound)?.into_iter().collect();
    let (mut reels, mut places) = (Reels::new(), Vec::new());
    for slot in image.filled_slots() {
        let walk = image.walk(image.root(slot), &mut HashSet::new()).map_err(unsound)?;
        reels.insert(image.reel(slot), tree::frames(&walk).into_iter().collect());
        let held = |node: Node<'_>| node.held().map(|place| (node.number, place, node.frame(place))).collect::<Vec<_>>();
        places.extend(walk.iter().flat_map(|reached| held(reached.node)));
    }
    Ok(Contents { reels, nodes, places })
}

/// The highest level of a node in use.
pub fn deepest(lent: &Lent) -> u64 {
    let (slots, nodes) = (lent.image[1], lent.image[2]);
    let level = |node: u64| lent.image[(node_index(slots, node) + LEVEL_AT) as usize];
    (0..nodes).filter(|&node| is_used(&lent.map, node)).map(level).max().unwrap_or(0)
}

fn check_heads(lent: &Lent, table: &Table) -> Result<(), String> {
    let image = Image::read(&lent.image, Fault::None).map_err(unsound)?;
    for head in 0..HEADS {
        let record = Head::read(&lent.heads, head);
        let about = |reel: u64, frame: u64| Some(record.slot) == image.slot_of(reel) && record.frame == frame;
        let agrees = match table.heads[head as usize] {
            table::Head::Idle => lent.heads[head as usize * HEAD_WORDS..][..HEAD_WORDS] == [0; HEAD_WORDS],
            table::Head::Claimed { reel, frame } => record.state == State::Claimed && about(reel, frame),
            table::Head::Filled { reel, frame } => record.state == State::Filled && about(reel, frame),
        };
        if !agrees {
            return Err(format!("the table's heads are {:?}, the records {:x?}", table.heads, &lent.heads[..]));
        }
    }
    Ok(())
}

fn check_locate(lent: &Lent, nodes: &BTreeSet<u64>) -> Result<(), String> {
    let heads: Vec<Head> = (0..HEADS).map(|head| Head::read(&lent.heads, head)).collect();
    for &node in nodes {
        let word = |word: u64| lent.image[(node_index(lent.image[1], node) + word) as usize];
        let claims = heads.iter().filter(|head| head.state != State::Idle && head.node == node && head.place < PLACES);
        let expected = claims.fold(word(SET), |places, head| places | 1 << head.place);
        if word(LOCATE) != expected {
            return Err(format!("node {}: expected locate {:x}, found {:x}", node, expected, word(LOCATE)));
        }
    }
    Ok(())
}

impl History<'_> {
    pub fn check_book(&self) -> Result<(), String> {
        self.check_header()?;
        self.check_contents(&contents(&self.lent.image)?)
    }

    /// The book is the table's. Its map has the nodes reached, and their locate words have the places held and those claimed.
    fn check_contents(&self, Contents { reels, nodes, .. }: &Contents) -> Result<(), String> {
        let (lent, table) = (&self.lent, &self.table);
        if *reels != table.reels {
            return Err(reels_differ(&table.reels, reels));
        }
        let mut map = vec![0; lent.map.len()];
        nodes.iter().for_each(|&node| mark_used(&mut map, node));
        if map != lent.map[..] {
            return Err(format!("nodes reached {:x?}, map {:x?}", map, &lent.map[..]));
        }
        check_heads(lent, table)?;
        check_locate(lent, nodes)
    }

    /// The image has a table of its own exactly where the table of reels says so; and its header is as it is to be.
    pub fn check_header(&self) -> Result<(), String> {
        let (found, table) = (&self.lent.image[..HEADER_WORDS as usize], self.table.own);
        let own = Rule::of(found) == Some(OWN);
        if own != table {
            return Err(format!("own table by the table of reels: {}, by the image: {}", table, own));
        }
        match (0..found.len()).find(|&word| found[word] != self.header[word]) {
            None => Ok(()),
            Some(word) => Err(format!("word {}: expected {:#x}, found {:#x}", word, self.header[word], found[word])),
        }
    }

    /// In a script, with so many claims open: at every moment of it, or at one.
    pub fn crash_in_script(&mut self, call: &Call, entries: &[Entry], before: &Reels, claims: Claims) -> Result<(), String> {
        let image = self.lent.image.clone();
        let before = Contents { reels: before.clone(), ..contents(&image)? };
        let mut carried = image.clone();
        carry_out(&mut carried, entries);
        let after = Contents { reels: self.table.reels.clone(), ..contents(&carried)? };
        let load = load(&self.table, call.reel).iter().sum();
        let performed = if self.on_lines { self.translated.clone() } else { entries.to_vec() };
        let moments = performed.len() as u64 + 1;
        let first = self.random.below(moments);
        let every_moment = self.plan.every_moment || call.function == Function::Tidy;
        for moment in first..first + if every_moment { moments } else { 1 } {
            let (done, left) = performed.split_at((moment % moments) as usize);
            let (passed, far) = (!left.contains(&BARRIER), as_far(done));
            self.coverage.crash(call.function, entries.len(), far, claims, self.rule());
            let cut = Cut { call, load, entries: entries.len(), moment: far };
            let mut crash = Crash::after(&image, &entries[..far]);
            if self.on_lines {
                self.coverage.translations.cut(call.function, entries.len(), far, done, left);
                crash = Crash::on_lines(&image, done, crash, self.subject.fault());
            }
            crash
                .check_here(self.random.word())
                .and_then(|_| self.crash(&crash, &before, &after, passed, Some(&cut)))
                .map_err(|text| format!("crash after {} of {} entries: {}", done.len(), performed.len(), text))?;
        }
        Ok(())
    }

    /// In a Recover that the history has, or between it and the driver's barrier.
    pub fn crash_in_recover(&mut self, image: &Buffer, reels: &Reels, claims: Claims) -> Result<(), String> {
        self.coverage.crash(Function::Recover, 0, 0, claims, self.rule());
        let both = Contents { reels: reels.clone(), ..contents(image)? };
        let crash = self.crash_of_recover(image);
        self.crash(&crash, &both, &both, false, None)
    }

    /// Tries what the crash can leave, and goes on from the last one tried. `passed`: the script's last barrier has passed. Has
    /// is asked in the reel of the call cut short each time, in the others at last.
    fn crash(
        &mut self,
        crash: &Crash,
        before: &Contents,
        after: &Contents,
        passed: bool,
        cut: Option<&Cut>,
    ) -> Result<(), String> {
        let mixtures = crash.mixtures();
        let all = mixtures <= if crash.flushing { SOME_MIXTURES } else { self.plan.mixtures };
        let first = self.random.below(mixtures);
        // The last number is that with every store kept.
        let kept = u64::from(self.plan.brim);
        for tried in 0..if all { mixtures } else { kept + SOME_MIXTURES } {
            let number = match tried {
                _ if all => (first + tried) % mixtures,
                _ if tried < kept => mixtures - 1,
                _ => self.random.below(mixtures),
            };
            self.lent.image = crash.mixture(number);
            let named = |text: String| format!("mixture {} of {}: {}", number, mixtures, text);
            crash.check(&self.lent.image).map_err(named)?;
            let undone = self.recovered(before, after, passed).map_err(named)?;
            self.coverage.mixture(undone, before.reels != after.reels);
            cut.map_or(Ok(()), |cut| self.ask_after(cut)).map_err(named)?;
        }
        self.ask_recovered()
    }

    /// Recovers, and takes the table of before or after, whichever the image then is, whole. True if it is before's.
    fn recovered(&mut self, before: &Contents, after: &Contents, passed: bool) -> Result<bool, String> {
        self.recover()?;
        self.check_header()?;
        let found = contents(&self.lent.image)?;
        let undone = !passed && found == *before;
        let expected = if undone { before } else { after };
        self.table.reels.clone_from(&expected.reels);
        self.table.heads = [table::Head::Idle; HEADS as usize];
        self.check_contents(&found)?;
        if found.nodes != expected.nodes {
            return Err(format!("nodes reached {:?}, of before {:?}, of after {:?}", found.nodes, before.nodes, after.nodes));
        }
        if found.places != expected.places {
            return Err("a frame is in another place".to_string());
        }
        Ok(undone)
    }

    /// Recovers, after none or some recoveries that crash or are refused.
    fn recover(&mut self) -> Result<(), String> {
        let attempts = if self.random.one_in(4) { self.random.between(1, MOST_ATTEMPTS) } else { 0 };
        for _ in 0..attempts {
            if self.random.one_in(4) {
                self.recover_refused()?;
                continue;
            }
            let image = self.lent.image.clone();
            self.recover_once()?;
            let crash = self.crash_of_recover(&image);
            self.lent.image = crash.mixture(self.random.below(crash.mixtures()));
            self.coverage.cut_recovery();
        }
        self.recover_once()
    }

    /// Map and records hold anything.
    fn lose_memory(&mut self) {
        for lost in [&mut self.lent.map, &mut self.lent.heads] {
            lost.iter_mut().for_each(|word| *word = self.random.word());
        }
    }

    pub fn recover_once(&mut self) -> Result<(), String> {
        self.lose_memory();
        match self.subject.perform(&RECOVER, &mut self.lent, 0).answer {
            0 => Ok(()),
            answer => Err(format!("recovery answers {}", answer)),
        }
    }

    /// A recovery that is lent a map or an image of another length: it is refused, and nothing is written.
    pub fn recover_refused(&mut self) -> Result<(), String> {
        self.lose_memory();
        let (image, map) = (self.lent.image.clone(), self.lent.map.clone());
        let (wrong, expected) = if self.random.one_in(3) { (&mut self.lent.image, 1) } else { (&mut self.lent.map, 3) };
        let length = wrong.len() as u64;
        let length = self.random.pick(&[length - 1, length + 1, 0]);
        wrong.resize(length as usize, || 0);
        let before = self.lent.clone();
        let answer = self.subject.perform(&RECOVER, &mut self.lent, 0).answer;
        if answer != expected || self.lent != before {
            return Err(format!("a recovery to be refused with {} answers {}, or has written", expected, answer));
        }
        (self.lent.image, self.lent.map) = (image, map);
        self.coverage.refused_recovery();
        Ok(())
    }
}
