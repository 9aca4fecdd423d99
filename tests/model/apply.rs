//! Carry out: a script of whole entries is applied to the image. Barriers and flushes are skipped.
use super::call::Lent;
use super::ending::*;
use super::fault::Fault;
use super::image::*;
use super::operations::{check, check_edition, Ended};
use super::script::{self, Entry, BARRIER, FLUSH, LINE_WORDS};

pub fn apply(lent: &mut Lent, fault: Fault) -> Ended {
    let image = Image::read(&lent.image, fault)?;
    let length = image.words.len() as u64;
    if fault == Fault::ApplyReadsEdition {
        check_edition(image.edition(), fault)?;
    }
    image.check_table_if(Fault::ApplyReadsTable)?;
    check(lent.script.len() % 2 == 0, SCRIPT_ODD)?;
    let entries = script::read(&lent.script);
    for (done, &entry) in entries.iter().enumerate() {
        if fault == Fault::AppliedInPart {
            script::carry_out(&mut lent.image, &entries[..done]);
        }
        check_entry(entry, length, fault)?;
    }
    script::carry_out(&mut lent.image, &entries);
    if fault == Fault::FlushStored {
        store_flushes(&mut lent.image, &entries);
    }
    let store = |least: u64, below: u64| entries.iter().any(|entry| entry.0 >= least && entry.0 < below);
    let flushes = entries.iter().any(|entry| entry.0 == FLUSH);
    Ok((shape(flushes, store(0, HEADER_WORDS), store(HEADER_WORDS, length)), 0))
}

/// A barrier, a flush of any line, or a store inside the image.
fn check_entry((index, value): Entry, length: u64, fault: Fault) -> Result<(), Ending> {
    match index {
        u64::MAX => check(value == BARRIER.1 || fault == Fault::BarrierWithValue, BARRIER_VALUE),
        FLUSH if fault == Fault::FlushRefused => Err(STORE_OUTSIDE),
        FLUSH if fault == Fault::FlushOutsideRefused => check(value <= (length - 1) / LINE_WORDS, STORE_OUTSIDE),
        FLUSH => Ok(()),
        _ => check(index < length, STORE_OUTSIDE),
    }
}

fn shape(flushes: bool, header: bool, others: bool) -> Ending {
    match (flushes, header, others) {
        (true, false, false) => FLUSHES_ALONE,
        (true, _, _) => STORES_FLUSHES,
        (_, true, _) => STORES_HEADER,
        (_, _, true) => STORES,
        _ => STORES_NONE,
    }
}

/// A fault: a flush is a store of its second word to the word of that number.
fn store_flushes(image: &mut [u64], entries: &[Entry]) {
    for &(_, line) in entries.iter().filter(|entry| entry.0 == FLUSH) {
        if let Some(word) = image.get_mut(line as usize) {
            *word = line;
        }
    }
}
