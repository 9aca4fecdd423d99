//! Scripts: entries of two words, a store (word index, value) or a barrier; in the module's also the flush of a line.

pub type Entry = (u64, u64);

pub const BARRIER: Entry = (u64::MAX, 0);
pub const SCRIPT_WORDS: usize = 50;

/// A flush is this and the line's number, whatever the image's length.
pub const FLUSH: u64 = u64::MAX - 1;
pub const LINE_WORDS: u64 = 8;

/// Neither a barrier nor a flush.
pub fn is_store(entry: &Entry) -> bool {
    entry.0 != BARRIER.0 && entry.0 != FLUSH
}

/// How many stores there are, flushes and barriers left out.
pub fn stores(entries: &[Entry]) -> u64 {
    entries.iter().filter(|entry| is_store(entry)).count() as u64
}

/// The highest word stored to, if there is one.
pub fn last_word(entries: &[Entry]) -> u64 {
    entries.iter().filter(|entry| is_store(entry)).map(|store| store.0).max().unwrap_or(0)
}

/// Writes entries to the script's start; the words used.
pub fn write(script: &mut [u64], entries: &[Entry]) -> u64 {
    for (index, entry) in entries.iter().enumerate() {
        script[2 * index] = entry.0;
        script[2 * index + 1] = entry.1;
    }
    2 * entries.len() as u64
}

pub fn read(words: &[u64]) -> Vec<Entry> {
    words.chunks_exact(2).map(|entry| (entry[0], entry[1])).collect()
}

/// A word of the image as it is when the stores are made.
pub fn word_after(image: &[u64], entries: &[Entry], index: u64) -> u64 {
    let stores = entries.iter().rev().find(|&&entry| entry.0 == index && entry != BARRIER);
    stores.map_or_else(|| image[index as usize], |store| store.1)
}

/// Makes the stores, in their sequence. Barriers and flushes are skipped, whatever line these name.
pub fn carry_out(image: &mut [u64], entries: &[Entry]) {
    for &(index, value) in entries.iter().filter(|entry| is_store(entry)) {
        image[index as usize] = value;
    }
}
