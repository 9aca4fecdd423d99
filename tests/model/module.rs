//! The memory module with line flushes: what its words may hold after some entries of its script, said as the request says it.
use super::script::{Entry, BARRIER, FLUSH, LINE_WORDS};

/// Is the store at this entry lasting: has its line been flushed after it, and has a barrier followed?
fn is_lasting(entries: &[Entry], store: usize) -> bool {
    let flush = (FLUSH, entries[store].0 / LINE_WORDS);
    let flushed = (store..entries.len()).find(|&at| entries[at] == flush);
    flushed.map_or(false, |at| entries[at..].contains(&BARRIER))
}

/// What this word may hold: its lasting content, or any one of the stores to it since.
pub fn contents(image: &[u64], entries: &[Entry], index: u64) -> Vec<u64> {
    let stores: Vec<usize> = (0..entries.len()).filter(|&at| entries[at].0 == index).collect();
    let pending = stores.iter().rposition(|&store| is_lasting(entries, store)).map_or(0, |last| last + 1);
    let lasting = if pending == 0 { image[index as usize] } else { entries[stores[pending - 1]].1 };
    std::iter::once(lasting).chain(stores[pending..].iter().map(|&store| entries[store].1)).collect()
}

/// As many of our entries as are among these of the module's.
pub fn as_far(entries: &[Entry]) -> usize {
    entries.iter().filter(|entry| entry.0 != FLUSH).count()
}
