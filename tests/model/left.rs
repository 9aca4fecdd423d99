//! Places left: how many clear places a node has when a claim has taken its place there.
use super::call::Lent;
use super::fault::Fault;
use super::image::{node_index, Head};
use super::node::{LOCATE, SET, SIZE_AT};
use super::script;

/// Words of the node in which a claim has taken a place, as they are when its script is carried out.
pub struct Claimed {
    pub size: u64,
    pub locate: u64,
    pub set: u64,
}

impl Claimed {
    /// The script of so many words is handed out and not yet carried out.
    pub fn of(node: u64, lent: &Lent, used: u64) -> Claimed {
        let entries = script::read(&lent.script[..used as usize]);
        let word = |word: u64| script::word_after(&lent.image, &entries, node_index(lent.image[1], node) + word);
        Claimed { size: word(SIZE_AT), locate: word(LOCATE), set: word(SET) }
    }

    /// The size minus the ones of the locate word.
    pub fn left(&self) -> u64 {
        self.size.wrapping_sub(u64::from(self.locate.count_ones()))
    }
}

/// The words of a scale-up's script; a branch-out has more.
const SCALE_UP: u64 = 8;

/// What an answered claim of this head hands back.
pub fn left(head: u64, lent: &Lent, used: u64, fault: Fault) -> u64 {
    let Head { node, place, .. } = Head::read(&lent.heads, head);
    let claimed = Claimed::of(node, lent, used);
    let (left, ones) = (claimed.left(), u64::from(claimed.locate.count_ones()));
    match fault {
        Fault::SizeBefore if used == SCALE_UP => (claimed.size / 2).saturating_sub(ones),
        Fault::SizeAlways64 => 64 - ones,
        Fault::TakenLeft => left + 1,
        Fault::LeftAbovePlace => claimed.size - 1 - place,
        Fault::LeftBySet => claimed.size - u64::from((claimed.set | 1 << place).count_ones()),
        Fault::LeftOfParent if used > SCALE_UP => 0,
        _ => left,
    }
}
