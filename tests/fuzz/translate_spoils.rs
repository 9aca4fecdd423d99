//! Deliberate faults of Translate in the library's place, and of Apply where it skips flushes.
use crate::model::call::{Call, Function::*, Handed, Lent};
use crate::model::script::{self, Entry, FLUSH};
use crate::model::translate::MODULE_WORDS;
use crate::spoil::*;

/// Found by single calls, where every word is compared with the model's.
pub static OF_CALLS: [Spoil; 23] = [
    after(Translate, 3, "translate answers 1 for 3", |_, _, handed| handed.answer = 1),
    after(Translate, 3, "translate answers 0 for 3", |_, _, handed| handed.answer = 0),
    after(Translate, 3, "translate answers 0 for a buffer of 97 words", |_, lent, handed| take_97(lent, handed)),
    after(Translate, 3, "translate hands back a count with 3", |_, _, handed| handed.count = 2),
    after(Translate, 3, "translate writes to its buffer with 3", |_, lent, _| first_of_module(lent)),
    after(Translate, 3, "translate clears its buffer with 3", |_, lent, _| lent.module.fill(0)),
    after(Translate, 0, "translate refuses a script without an entry", |_, _, handed| handed.answer = refused_if_none(handed)),
    after(Translate, 0, "translate refuses a script of 50 words", |_, lent, handed| refuse_if_full(lent, handed)),
    after(Translate, 0, "translate hands back two words more", |_, _, handed| handed.count += 2),
    after(Translate, 0, "translate hands back entries for words", |_, _, handed| handed.count /= 2),
    after(Translate, 0, "translate clears the buffer's tail", |_, lent, handed| clear_tail(lent, handed.count)),
    after(Translate, 0, "translate writes behind its entries", |_, lent, handed| behind_entries(lent, handed.count)),
    after(Translate, 0, "translate writes outside of its buffer", |_, lent, _| lent.module.write_behind()),
    after(Translate, 0, "translate writes to the script", |_, lent, _| last_of_script(lent)),
    after(Translate, 0, "translate exchanges two flushes", |_, lent, handed| exchange_flushes(lent, handed.count)),
    after(Translate, 0, "translate flushes another line", |_, lent, handed| change_flush(lent, handed.count)),
    after(Translate, 0, "translate puts the last flush behind its barrier", |_, lent, handed| delay_flush(lent, handed.count)),
    after(Translate, 0, "translate puts the last flush twice", repeat_flush),
    after(Translate, 0, "translate loses the last flush", lose_flush),
    after(Translate, 0, "translate changes a value", |_, lent, handed| change_value(lent, handed.count)),
    after(Apply, 0, "apply answers 3 for a flush", |_, lent, handed| handed.answer = 3 * has_flush(lent)),
    after(Apply, 0, "apply stores to a flush's line", |_, lent, _| store_flush(lent)),
    after(Apply, 0, "apply writes to a script with a flush", |_, lent, _| write_flush(lent)),
];

/// Found by histories, in which every script is translated.
pub static OF_HISTORIES: [Spoil; 9] = [
    after(Translate, 0, "translate refuses a script", |_, _, handed| (handed.answer, handed.count) = (3, 0)),
    after(Translate, 0, "translate refuses a script without an entry", |_, _, handed| handed.answer = refused_if_none(handed)),
    after(Translate, 0, "translate clears the buffer's tail", |_, lent, handed| clear_tail(lent, handed.count)),
    after(Translate, 0, "translate exchanges two flushes", |_, lent, handed| exchange_flushes(lent, handed.count)),
    after(Translate, 0, "translate flushes another line", |_, lent, handed| change_flush(lent, handed.count)),
    after(Translate, 0, "translate puts the last flush behind its barrier", |_, lent, handed| delay_flush(lent, handed.count)),
    after(Translate, 0, "translate loses the last flush", lose_flush),
    after(Translate, 0, "translate writes to the script", |_, lent, _| last_of_script(lent)),
    after(Apply, 0, "apply answers 3 for a flush", |_, lent, handed| handed.answer = 3 * has_flush(lent)),
];

fn first_of_module(lent: &mut Lent) {
    if let Some(word) = lent.module.first_mut() {
        *word ^= 1;
    }
}

fn last_of_script(lent: &mut Lent) {
    if let Some(word) = lent.script.last_mut() {
        *word ^= 1;
    }
}

fn refused_if_none(handed: &Handed) -> u64 {
    if handed.count == 0 {
        3
    } else {
        0
    }
}

fn refuse_if_full(lent: &Lent, handed: &mut Handed) {
    if lent.script.len() == script::SCRIPT_WORDS {
        (handed.answer, handed.count) = (3, 0);
    }
}

fn clear_tail(lent: &mut Lent, used: u64) {
    lent.module[used as usize..].fill(0);
}

fn behind_entries(lent: &mut Lent, used: u64) {
    if let Some(word) = lent.module.get_mut(used as usize) {
        *word ^= 1;
    }
}

fn entries(lent: &Lent, used: u64) -> Vec<Entry> {
    script::read(&lent.module[..used as usize])
}

fn exchange_flushes(lent: &mut Lent, used: u64) {
    let mut entries = entries(lent, used);
    if let Some(at) = entries.windows(2).position(|two| two[0].0 == FLUSH && two[1].0 == FLUSH) {
        entries.swap(at, at + 1);
        script::write(&mut lent.module, &entries);
    }
}

fn change_flush(lent: &mut Lent, used: u64) {
    change_at_flush(lent, used, |entries, at| entries[at].1 ^= 1);
}

/// Changes the entries at the last flush.
fn change_at_flush(lent: &mut Lent, used: u64, change: fn(&mut Vec<Entry>, usize)) -> u64 {
    let mut entries = entries(lent, used);
    match entries.iter().rposition(|entry| entry.0 == FLUSH) {
        Some(at) => change(&mut entries, at),
        None => return used,
    }
    let room = entries.len().min(lent.module.len() / 2);
    script::write(&mut lent.module, &entries[..room])
}

fn delay_flush(lent: &mut Lent, used: u64) {
    change_at_flush(lent, used, |entries, at| entries.swap(at, at + 1));
}

fn repeat_flush(_: &Call, lent: &mut Lent, handed: &mut Handed) {
    handed.count = change_at_flush(lent, handed.count, |entries, at| entries.insert(at, entries[at]));
}

fn lose_flush(_: &Call, lent: &mut Lent, handed: &mut Handed) {
    handed.count = change_at_flush(lent, handed.count, |entries, at| {
        entries.remove(at);
    });
}

fn take_97(lent: &Lent, handed: &mut Handed) {
    if lent.module.len() == MODULE_WORDS - 1 {
        handed.answer = 0;
    }
}

/// Of the first entry, if it is no barrier.
fn change_value(lent: &mut Lent, used: u64) {
    if entries(lent, used).first().map_or(false, script::is_store) {
        lent.module[1] ^= 1;
    }
}

fn has_flush(lent: &Lent) -> u64 {
    u64::from(script::read(&lent.script).iter().any(|entry| entry.0 == FLUSH))
}

fn store_flush(lent: &mut Lent) {
    let flush = script::read(&lent.script).into_iter().find(|entry| entry.0 == FLUSH);
    if let Some(word) = flush.and_then(|(_, line)| lent.image.get_mut(line as usize)) {
        *word ^= 1;
    }
}

fn write_flush(lent: &mut Lent) {
    if has_flush(lent) == 1 {
        last_of_script(lent);
    }
}
