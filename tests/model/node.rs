//! A node, its children, and the fingerprints of its places.
use super::ending::*;
use super::fault::Fault;
use super::image::Image;
use super::rule::{Rule, FIRST, SECOND};

pub const NEXT: u64 = 0;
pub const LOCATE: u64 = 1;
pub const SET: u64 = 2;
pub const LEVEL_AT: u64 = 3;
pub const SIZE_AT: u64 = 4;
pub const FINGERPRINTS: u64 = 8;
pub const FRAMES: u64 = 16;
pub const PLACES: u64 = 64;
pub const LAST_LEVEL: u64 = 31;

/// How many children a node of this level has.
pub fn children(level: u64) -> u64 {
    match level {
        0..=2 => 2,
        3..=30 => 4,
        _ => 0,
    }
}

/// The child that a frame goes to from this level.
pub fn child(level: u64, frame: u64) -> u64 {
    let bit = |index: u64| frame >> index & 1;
    if level <= 2 {
        bit(level)
    } else {
        bit(2 * level - 3) + 2 * bit(2 * level - 2)
    }
}

/// The frame's low bits, lowest first, that lead to a node of this level.
pub const fn path_bits(level: u64) -> u64 {
    if level <= 3 {
        level
    } else {
        2 * level - 3
    }
}

/// Do two frames agree in their low four bytes? Then edition 1 has one fingerprint for both.
pub fn same_lower_half(a: u64, b: u64) -> bool {
    (a ^ b) << 32 == 0
}

/// The word with one of its eight bytes replaced.
pub fn with_byte(word: u64, byte: u64, value: u64) -> u64 {
    word & !(255 << (8 * byte)) | value << (8 * byte)
}

/// A node inside the pool; nothing else is known of it.
#[derive(Clone, Copy)]
pub struct Node<'a> {
    pub image: Image<'a>,
    pub number: u64,
}

impl<'a> Node<'a> {
    pub fn of(image: Image<'a>, number: u64) -> Node<'a> {
        Node { image, number }
    }

    /// The index in the image of one of the node's words.
    pub fn at(&self, word: u64) -> u64 {
        self.image.node_index(self.number) + word
    }

    pub fn word(&self, word: u64) -> u64 {
        self.image.word(self.at(word))
    }

    pub fn frame(&self, place: u64) -> u64 {
        self.word(FRAMES + place)
    }

    pub fn fingerprint(&self, place: u64) -> u64 {
        self.word(FINGERPRINTS + place / 8) >> (8 * (place % 8)) & 255
    }

    /// The places whose set bit is 1, rising.
    pub fn held(&self) -> impl Iterator<Item = u64> {
        let set = self.word(SET);
        (0..PLACES).filter(move |place| set >> place & 1 == 1)
    }

    /// The lowest place below the size whose locate bit is 0.
    pub fn clear_place(&self) -> Option<u64> {
        let locate = self.word(LOCATE);
        (0..self.word(SIZE_AT)).find(|place| locate >> place & 1 == 0)
    }

    /// The places at which the lookup finds the frame, rising.
    pub fn places_of(&self, frame: u64) -> impl Iterator<Item = u64> + 'a {
        let node = *self;
        let rule = node.image.rule();
        let matches = move |place: u64| match node.image.fault {
            Fault::FingerprintUnread => true,
            Fault::LookupFoldsFour => node.has_fingerprint(place, Rule { bytes: 4, ..rule }),
            Fault::LookupOverOurs => node.has_fingerprint(place, Rule { own: false, ..rule }),
            _ => node.has_right_fingerprint(place),
        };
        let is_frame = move |place: u64| match node.image.fault {
            Fault::LowerHalfCompared => same_lower_half(node.frame(place), frame),
            _ => node.frame(place) == frame,
        };
        self.held().filter(move |&place| is_frame(place) && matches(place))
    }

    /// Is the fingerprint in this place that of the frame there, by this rule?
    pub fn has_fingerprint(&self, place: u64, rule: Rule) -> bool {
        self.image.fingerprint_by(rule, self.frame(place)) == self.fingerprint(place)
    }

    pub fn has_right_fingerprint(&self, place: u64) -> bool {
        match self.image.fault {
            Fault::EitherRule => [FIRST, SECOND].iter().any(|&rule| self.has_fingerprint(place, rule)),
            _ => self.has_fingerprint(place, self.image.rule()),
        }
    }

    /// Is it one that another rule would have?
    pub fn has_other_fingerprint(&self, place: u64) -> bool {
        self.image.rule().others().any(|rule| self.has_fingerprint(place, rule))
    }

    /// Refusal 4 unless the node is well formed at this depth.
    pub fn check(&self, depth: u64) -> Result<(), Ending> {
        let (next, level, size) = (self.word(NEXT), self.word(LEVEL_AT), self.word(SIZE_AT));
        let allowed: &[u64] = if depth == 0 { &[16, 32, 64] } else { &[64] };
        if level != depth {
            return Err(LEVEL);
        }
        if !allowed.contains(&size) {
            return Err(SIZE);
        }
        let above = |bitmap: u64| size < 64 && bitmap >> size != 0;
        if above(self.word(LOCATE)) {
            return Err(LOCATE_ABOVE);
        }
        if above(self.word(SET)) {
            return Err(SET_ABOVE);
        }
        if next == 0 {
            return Ok(());
        }
        if size < 64 {
            return Err(NEXT_SMALL);
        }
        if level == LAST_LEVEL {
            return Err(NEXT_LAST);
        }
        let inside = if self.image.fault == Fault::OneChildInside { 1 } else { children(level) };
        if u128::from(next) - 1 + u128::from(inside) > u128::from(self.image.nodes) {
            return Err(CHILDREN_OUTSIDE);
        }
        Ok(())
    }
}

impl<'a> Image<'a> {
    /// The node with this number at this depth. Refusal 4 if it is malformed there.
    pub fn node(&self, number: u64, depth: u64) -> Result<Node<'a>, Ending> {
        if number >= self.nodes {
            return Err(OUTSIDE);
        }
        let node = Node::of(*self, number);
        node.check(depth)?;
        Ok(node)
    }
}
