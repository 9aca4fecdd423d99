//! What a crash can leave: each word stored to since the last barrier passed holds its content from then or any one of those
//! stores, each word for itself; all others are as carried out. On the module with line flushes, what has not been flushed and
//! fenced may be there or not.
use crate::lines::Lines;
use crate::model::buffer::Buffer;
use crate::model::fault::Fault;
use crate::model::script::{carry_out, word_after, Entry, BARRIER, FLUSH};
use std::collections::BTreeMap;

pub struct Crash {
    /// The image at the last barrier passed.
    settled: Buffer,
    /// The words stored to since, each with the contents that it may hold, that of `settled` first.
    pending: BTreeMap<usize, Vec<u64>>,
    /// On the module with line flushes: what the present one, cut as far, could have left.
    here: Option<Box<Crash>>,
    /// The last entry is a flush, without which the images are the same.
    pub flushing: bool,
}

/// How many of these entries come before the last barrier, with it.
fn passed(entries: &[Entry]) -> usize {
    entries.iter().rposition(|&entry| entry == BARRIER).map_or(0, |barrier| barrier + 1)
}

/// What a word may hold on the present module after these entries.
pub fn contents_here(image: &[u64], entries: &[Entry], index: u64) -> Vec<u64> {
    let (settled, pending) = entries.split_at(passed(entries));
    let stores = pending.iter().filter(|store| store.0 == index).map(|store| store.1);
    std::iter::once(word_after(image, settled, index)).chain(stores).collect()
}

/// Faults: a word beside those stored to is torn too, or the first of these has its store already.
fn spoil(settled: &mut [u64], pending: &mut BTreeMap<usize, Vec<u64>>, fault: Fault) {
    let first = pending.keys().next().copied();
    match (fault, first) {
        (Fault::NeighbourTorn, Some(index)) => {
            let beside = index ^ 1;
            pending.entry(beside).or_insert_with(|| vec![settled[beside], !settled[beside]]);
        }
        (Fault::FirstWordKept, Some(index)) => {
            let contents = pending.remove(&index).unwrap_or_default();
            settled[index] = contents.last().copied().unwrap_or(settled[index]);
        }
        _ => (),
    }
}

impl Crash {
    /// After some of a script's entries, on an image that was lasting before the script.
    pub fn after(image: &Buffer, entries: &[Entry]) -> Crash {
        let passed = passed(entries);
        let mut settled = image.clone();
        carry_out(&mut settled, &entries[..passed]);
        let stores = entries[passed..].iter().map(|&(index, value)| (index as usize, value));
        Crash::of_stores(settled, stores)
    }

    /// In Recover: it stores to these words itself, and no barrier has passed.
    pub fn in_recover(before: &Buffer, after: &Buffer) -> Crash {
        let stores = (0..before.len()).filter(|&index| before[index] != after[index]).map(|index| (index, after[index]));
        Crash::of_stores(before.clone(), stores)
    }

    fn of_stores(settled: Buffer, stores: impl Iterator<Item = (usize, u64)>) -> Crash {
        let mut pending: BTreeMap<usize, Vec<u64>> = BTreeMap::new();
        for (index, value) in stores {
            pending.entry(index).or_insert_with(|| vec![settled[index]]).push(value);
        }
        Crash { settled, pending, here: None, flushing: false }
    }

    /// On the module with line flushes, after some entries of its script; `here` on the present one, cut as far.
    pub fn on_lines(image: &Buffer, entries: &[Entry], here: Crash, fault: Fault) -> Crash {
        let lines = Lines::after(image, entries, fault);
        let mut settled = image.clone();
        lines.lasting().for_each(|(index, value)| settled[index as usize] = value);
        let waiting = lines.waiting().into_iter();
        let mut pending: BTreeMap<usize, Vec<u64>> = waiting.map(|index| (index as usize, lines.contents(index))).collect();
        spoil(&mut settled, &mut pending, fault);
        let flushing = entries.last().map_or(false, |entry| entry.0 == FLUSH);
        Crash { settled, pending, here: Some(Box::new(here)), flushing }
    }

    /// How many images this crash can leave.
    pub fn mixtures(&self) -> u64 {
        self.pending.values().fold(1, |product: u64, contents| product.saturating_mul(contents.len() as u64))
    }

    /// One of them, by its number.
    pub fn mixture(&self, mut number: u64) -> Buffer {
        let mut image = self.settled.clone();
        for (&index, contents) in &self.pending {
            image[index] = contents[(number % contents.len() as u64) as usize];
            number /= contents.len() as u64;
        }
        image
    }

    /// Is this image one of them? Word by word.
    pub fn could_leave(&self, image: &[u64]) -> bool {
        let is_pending = |index: usize| self.pending.get(&index).map_or(false, |contents| contents.contains(&image[index]));
        let words = image.iter().zip(self.settled.iter()).enumerate();
        words.filter(|(_, (word, settled))| word != settled).all(|(index, _)| is_pending(index))
    }

    /// An image of the module with line flushes must be one that the present module, cut as far, could have left.
    pub fn check(&self, image: &[u64]) -> Result<(), String> {
        match &self.here {
            Some(here) if !here.could_leave(image) => Err("the present module could not have left this".to_string()),
            _ => Ok(()),
        }
    }

    /// One that the present module, cut as far, could have left, drawn by this number, must be one of the module's. In a script
    /// alone: of what Recover stores, not all need be under way.
    pub fn check_here(&self, drawn: u64) -> Result<(), String> {
        match &self.here {
            Some(here) if !self.could_leave(&here.mixture(drawn % here.mixtures())) => {
                Err(format!("mixture {} of the present module's is none of the module's", drawn % here.mixtures()))
            }
            _ => Ok(()),
        }
    }
}
