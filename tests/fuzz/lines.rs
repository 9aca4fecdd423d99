//! The memory module with line flushes, entry by entry: a store waits in its line until the line is flushed and a barrier
//! follows. And what a driver gives it after an order that writes an image itself.
use crate::model::fault::Fault;
use crate::model::script::{Entry, BARRIER, FLUSH, LINE_WORDS};
use std::collections::{BTreeMap, BTreeSet};

struct Store {
    index: u64,
    value: u64,
    flushed: bool,
}

pub struct Lines<'a> {
    image: &'a [u64],
    /// Words that hold something else now, lasting.
    lasting: BTreeMap<u64, u64>,
    /// By line, in their sequence.
    waiting: BTreeMap<u64, Vec<Store>>,
    /// What faults go by: the lines flushed since the last barrier, and all stores.
    flushed: BTreeSet<u64>,
    made: Vec<Entry>,
    fault: Fault,
}

impl<'a> Lines<'a> {
    /// All of the image lasts.
    pub fn new(image: &'a [u64], fault: Fault) -> Lines<'a> {
        let (lasting, waiting) = (BTreeMap::new(), BTreeMap::new());
        Lines { image, lasting, waiting, flushed: BTreeSet::new(), made: Vec::new(), fault }
    }

    /// After these entries.
    pub fn after(image: &'a [u64], entries: &[Entry], fault: Fault) -> Lines<'a> {
        let mut lines = Lines::new(image, fault);
        entries.iter().for_each(|&entry| lines.step(entry));
        lines
    }

    pub fn step(&mut self, entry: Entry) {
        match entry {
            BARRIER => self.fence(self.fault == Fault::FenceAlone),
            (FLUSH, line) => self.flush(line),
            (index, value) => self.store(index, value),
        }
    }

    fn store(&mut self, index: u64, value: u64) {
        let line = index / LINE_WORDS;
        let flushed = self.fault == Fault::FlushLeftOpen && self.flushed.contains(&line);
        self.waiting.entry(line).or_default().push(Store { index, value, flushed });
        if self.fault == Fault::StoresComeBack {
            self.made.push((index, value));
        }
    }

    fn flush(&mut self, line: u64) {
        let stores = self.waiting.get_mut(&line).into_iter().flatten();
        stores.for_each(|store| store.flushed = true);
        match self.fault {
            Fault::AnyLineFlushed => self.waiting.values_mut().flatten().for_each(|store| store.flushed = true),
            Fault::FlushLeftOpen => {
                self.flushed.insert(line);
            }
            Fault::FlushAlone => self.fence(false),
            _ => (),
        }
    }

    /// What was flushed lasts now.
    fn fence(&mut self, all: bool) {
        for stores in self.waiting.values_mut() {
            let done = stores.iter().filter(|store| store.flushed || all);
            self.lasting.extend(done.map(|store| (store.index, store.value)));
            stores.retain(|store| !store.flushed && !all);
        }
        self.waiting.retain(|_, stores| !stores.is_empty());
        self.flushed.clear();
    }

    /// What this word may hold, the lasting content first, then stores in their sequence.
    pub fn contents(&self, index: u64) -> Vec<u64> {
        let lasting = self.lasting.get(&index).copied().unwrap_or_else(|| self.image[index as usize]);
        let stores = self.waiting.get(&(index / LINE_WORDS)).into_iter().flatten();
        let mut waiting: Vec<u64> = stores.filter(|store| store.index == index).map(|store| store.value).collect();
        match self.fault {
            Fault::LastStoreAlone if !waiting.is_empty() => waiting = vec![waiting[waiting.len() - 1]],
            Fault::LastingGone if !waiting.is_empty() => return waiting,
            Fault::StoresComeBack => waiting.extend(self.made.iter().filter(|store| store.0 == index).map(|store| store.1)),
            _ => (),
        }
        waiting.insert(0, lasting);
        waiting
    }

    /// The words with stores that wait.
    pub fn waiting(&self) -> BTreeSet<u64> {
        self.waiting.values().flatten().map(|store| store.index).collect()
    }

    /// The words that last as something else than before.
    pub fn lasting(&self) -> impl Iterator<Item = (u64, u64)> + '_ {
        self.lasting.iter().map(|(&index, &value)| (index, value))
    }
}

/// An order that writes an image itself, and the driver after it: the stores, each of the image's lines flushed, a barrier.
pub fn written(before: &[u64], after: &[u64], fault: Fault) -> Vec<Entry> {
    let words = before.len() as u64;
    let stores = (0..words).map(|index| (index, after[index as usize])).filter(|store| before[store.0 as usize] != store.1);
    let lines = match fault {
        Fault::NoLineFlushed => 0,
        Fault::LastLineLeft => words / LINE_WORDS,
        _ => (words + LINE_WORDS - 1) / LINE_WORDS,
    };
    let flushes = (0..lines).map(|line| (FLUSH, line));
    if fault == Fault::BarrierBeforeLines {
        return stores.chain([BARRIER]).chain(flushes).collect();
    }
    stores.chain(flushes).chain([BARRIER]).collect()
}
