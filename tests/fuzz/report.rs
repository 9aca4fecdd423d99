//! What a difference looks like in print.
use crate::model::call::{Call, Function, Handed, Lent};
use crate::model::image::*;
use crate::model::table::Reels;

const SHOWN: usize = 16;

/// The call with those numbers that it has.
pub fn describe(call: &Call) -> String {
    use Function::*;
    let name = call.function.name();
    match call.function {
        Format => format!("{} slots={} nodes={}", name, call.slots, call.nodes),
        Recover | Convert | Apply => name,
        Translate => format!("{} image words={}", name, call.words),
        Open | List | Retire | Tidy => format!("{} reel={}", name, call.reel),
        Claim => format!("{} head={} reel={} frame={}", name, call.head, call.reel, call.frame),
        Fill | Commit | Abandon => format!("{} head={}", name, call.head),
        Remove | Has => format!("{} reel={} frame={}", name, call.reel, call.frame),
    }
}

/// Which word of which slot or node an index of the image is.
fn part(image: &[u64], index: usize) -> String {
    let index = index as u64;
    let slots = image.get(1).copied().unwrap_or(0);
    if index < HEADER_WORDS || slots > MAX_SLOTS {
        String::new()
    } else if index < slot_index(slots) {
        format!(" (slot {} word {})", (index - HEADER_WORDS) / SLOT_WORDS, (index - HEADER_WORDS) % SLOT_WORDS)
    } else {
        let within = index - slot_index(slots);
        format!(" (node {} word {})", within / NODE_WORDS, within % NODE_WORDS)
    }
}

/// The call, what it was lent, and where what it handed back and the buffers are not as expected.
pub fn difference(call: &Call, heads: &[u64], expected: (Handed, &Lent), found: (Handed, &Lent)) -> String {
    let mut lines = vec![describe(call)];
    let lengths = found.1.named().map(|(name, buffer)| format!("{} {}", name, buffer.len()));
    let header = found.1.image.iter().take(4).collect::<Vec<_>>();
    let table = found.1.table.as_ref().map_or("none".to_string(), |table| format!("{} bytes", table.len()));
    lines.push(format!("words: {}; table: {}", lengths.join(", "), table));
    lines.push(format!("image begins {:?}; heads were {:x?}", header, heads));
    for (what, Handed { answer, count, left, path_nodes }) in [("expected", expected.0), ("found", found.0)] {
        lines.push(format!("{} answer {}, count {}, places left {}, nodes {}", what, answer, count, left, path_nodes));
    }
    if expected.1.table != found.1.table {
        lines.push("table: it is written".to_string());
    }
    for ((name, a), (_, b)) in expected.1.named().into_iter().zip(found.1.named()) {
        if !b.guards_hold() {
            lines.push(format!("{}: words outside are written", name));
        }
        for index in (0..a.len()).filter(|&index| a[index] != b[index]).take(SHOWN) {
            let part = if matches!(name, "image" | "copy") { part(a, index) } else { String::new() };
            lines.push(format!("{}[{}]{}: expected {:#x}, found {:#x}", name, index, part, a[index], b[index]));
        }
    }
    lines.join("\n")
}

/// What the image lacks of the table, and what it has besides.
pub fn reels_differ(table: &Reels, image: &Reels) -> String {
    let less = |a: &Reels, b: &Reels| {
        let mut lines = Vec::new();
        for (reel, frames) in a {
            match b.get(reel) {
                None => lines.push(format!("reel {}", reel)),
                Some(others) => lines.extend(frames.difference(others).map(|frame| format!("reel {} frame {}", reel, frame))),
            }
        }
        lines.truncate(SHOWN);
        lines.join(", ")
    };
    format!("the image lacks [{}], it has besides [{}]", less(table, image), less(image, table))
}
