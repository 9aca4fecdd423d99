//! Format, and the table that it may be given.
use super::call::{Call, Lent};
use super::ending::*;
use super::fault::Fault;
use super::image::*;
use super::operations::*;
use super::rule::*;

/// What Format writes to words 0 to 63. A table of length 0 is none.
pub fn header(slots: u64, nodes: u64, table: &[u8]) -> [u64; HEADER_WORDS as usize] {
    let mut words = [0; HEADER_WORDS as usize];
    words[..3].copy_from_slice(&[EDITION, slots, nodes]);
    if !table.is_empty() {
        words[OWN_AT] = 1;
        words[TABLE_AT..][..TABLE_WORDS].copy_from_slice(&packed(table));
    }
    words
}

/// Format's refusal 16, or how it ends otherwise: with the table that it is given, if any.
pub fn check_given(table: Option<&[u8]>, fault: Fault) -> Result<Ending, Ending> {
    let table = match table {
        None => return Ok(NO_TABLE),
        Some([]) if fault == Fault::EmptyRefused => return Err(TABLE_SHORT),
        Some([]) => return Ok(EMPTY_TABLE),
        Some(table) => table,
    };
    let length = match (table.len(), fault) {
        (257, Fault::OneByteMoreTaken) | (512, Fault::TwoTablesTaken) => 256,
        (length, _) => length,
    };
    match (length, lacks(table)) {
        (0..=255, _) => Err(TABLE_SHORT),
        (257.., _) => Err(TABLE_LONG),
        (_, 0) if table == our_table() => Ok(GIVEN_OURS),
        (_, 0) => Ok(GIVEN_TABLE),
        (_, 1) if fault == Fault::GivenLacksOneTaken => Ok(GIVEN_TABLE),
        (_, 1) => Err(TABLE_LACKS_ONE),
        _ => Err(TABLE_LACKS),
    }
}

pub fn format(call: &Call, lent: &mut Lent, fault: Fault) -> Ended {
    check_length(lent.image.len(), call.slots, call.nodes, fault)?;
    let map = check_map(&lent.map, call.nodes);
    let table = check_given(lent.table.as_deref(), fault);
    let ending = match fault {
        Fault::TableBeforeMap => table.and_then(|ending| map.map(|_| ending)),
        _ => map.and(table),
    }?;
    if fault == Fault::FormatReadsTable {
        check_image(&lent.image, fault).map_or(Ok(()), |image| image.check_table())?;
    }
    let table = lent.table();
    // By a fault it may be a longer one.
    let header = formatted(call, &lent.image, &table[..table.len().min(TABLE_BYTES)], fault);
    lent.image[..HEADER_WORDS as usize].copy_from_slice(&header);
    for slot in 0..call.slots {
        lent.image[slot_index(slot) as usize + 1] = 0;
    }
    lent.map.fill(0);
    clear_heads(&mut lent.heads, fault);
    Ok((ending, 0))
}

/// The header that Format writes over this image. Its faults are made here.
fn formatted(call: &Call, image: &[u64], table: &[u8], fault: Fault) -> [u64; HEADER_WORDS as usize] {
    let forgotten = fault == Fault::OursForgotten && table == our_table();
    let mut words = header(call.slots, call.nodes, if forgotten { &[] } else { table });
    let stored = &mut words[TABLE_AT..][..TABLE_WORDS];
    match fault {
        Fault::TableNotStored => stored.fill(0),
        Fault::TableReversed => stored.iter_mut().for_each(|word| *word = word.swap_bytes()),
        Fault::OldTableLeft if table.is_empty() => stored.copy_from_slice(&image[TABLE_AT..][..TABLE_WORDS]),
        Fault::OwnLeft0 => words[OWN_AT] = 0,
        Fault::FormatWrites1 => words[0] = FIRST_EDITION,
        Fault::FormatKeeps1 if image[0] == FIRST_EDITION => words[0] = FIRST_EDITION,
        _ => (),
    }
    words
}
