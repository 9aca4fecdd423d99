//! The rule of a fingerprint: how many bytes of a frame are folded, and over which table of 256 entries, ours or the image's own.
use super::ending::*;
use super::fault::Fault;
use super::image::*;

pub const TABLE_BYTES: usize = 256;

#[derive(Clone, Copy, PartialEq, Eq, PartialOrd, Ord, Debug)]
pub struct Rule {
    pub bytes: u64,
    pub own: bool,
}

/// Edition 1; edition 2; edition 2 with an own table.
pub const FIRST: Rule = Rule { bytes: 4, own: false };
pub const SECOND: Rule = Rule { bytes: 8, own: false };
pub const OWN: Rule = Rule { bytes: 8, own: true };
pub const RULES: [Rule; 3] = [FIRST, SECOND, OWN];
/// Of no image.
const FOUR_OF_OWN: Rule = Rule { bytes: 4, own: true };

fn our_entry(index: u64) -> u64 {
    (167 * index + 13) % 256
}

/// An entry of the table that an image has in words 8 to 39, eight to a word, lowest byte first.
fn stored_entry(words: &[u64], index: u64) -> u64 {
    words[TABLE_AT + index as usize / 8] >> (8 * (index % 8)) & 255
}

pub fn our_table() -> Vec<u8> {
    (0..256).map(|index| our_entry(index) as u8).collect()
}

pub fn stored_table(words: &[u64]) -> Vec<u8> {
    words[TABLE_AT..][..TABLE_WORDS].iter().flat_map(|word| word.to_le_bytes()).collect()
}

/// The words in which an image has a table.
pub fn packed(table: &[u8]) -> Vec<u64> {
    let word = |entries: &[u8]| (0..).zip(entries).map(|(byte, &entry)| u64::from(entry) << (8 * byte)).sum();
    table.chunks(8).map(word).collect()
}

/// How many of the 256 bytes do not occur.
pub fn lacks(table: &[u8]) -> usize {
    let mut occurs = [false; 256];
    table.iter().for_each(|&byte| occurs[usize::from(byte)] = true);
    occurs.iter().filter(|&&occurs| !occurs).count()
}

/// Does an image, of whatever length, have a bad table?
pub fn is_bad(words: &[u64]) -> bool {
    let image = Image { words, slots: 0, nodes: 0, fault: Fault::None };
    words.len() >= HEADER_WORDS as usize && image.check_table().is_err()
}

impl Rule {
    /// An image's by its header, if its edition is known and, in edition 2, its word 3 is 0 or 1.
    pub fn of(words: &[u64]) -> Option<Rule> {
        match (words.first()?, words.get(OWN_AT)?) {
            (&FIRST_EDITION, _) => Some(FIRST),
            (&EDITION, 0) => Some(SECOND),
            (&EDITION, 1) => Some(OWN),
            _ => None,
        }
    }

    pub fn edition(self) -> u64 {
        if self.bytes == 4 {
            FIRST_EDITION
        } else {
            EDITION
        }
    }

    /// The other rules that a mistake could go by.
    pub fn others(self) -> impl Iterator<Item = Rule> {
        [FIRST, SECOND, OWN, FOUR_OF_OWN].into_iter().filter(move |&rule| rule != self)
    }

    /// A frame's in this image: for each byte, lowest first, the entry of what the bytes before have made of 0, xor the byte.
    pub fn fingerprint(self, words: &[u64], frame: u64) -> u64 {
        let mut hash = 0;
        for byte in 0..self.bytes {
            let index = hash ^ (frame >> (8 * byte) & 255);
            hash = if self.own { stored_entry(words, index) } else { our_entry(index) };
        }
        hash
    }
}

impl Image<'_> {
    /// Faults of the rule are made here.
    pub fn rule(&self) -> Rule {
        let own = self.words[OWN_AT] == 1;
        let rule = match self.edition() {
            FIRST_EDITION => FIRST,
            _ if own => OWN,
            _ => SECOND,
        };
        match self.fault {
            Fault::FourBytes => Rule { bytes: 4, ..rule },
            Fault::EightBytes => Rule { bytes: 8, ..rule },
            Fault::OwnFoldsFour if rule.own => Rule { bytes: 4, ..rule },
            Fault::FirstOverStored => Rule { own, ..rule },
            Fault::UnmarkedTaken if rule == SECOND => Rule { own: lacks(&stored_table(self.words)) == 0, ..rule },
            _ => rule,
        }
    }

    pub fn fingerprint_by(&self, rule: Rule, frame: u64) -> u64 {
        let frame = if self.fault == Fault::UpperBytesUnread { frame & u64::from(u32::MAX) } else { frame };
        rule.fingerprint(self.words, frame)
    }

    /// Refusal 4 of edition 2, where word 3 is above 1, or it is 1 and the stored table lacks some byte.
    pub fn check_table(&self) -> Result<(), Ending> {
        let first = self.edition() == FIRST_EDITION && self.fault == Fault::FirstTableChecked;
        if self.edition() != EDITION && !first {
            return Ok(());
        }
        let own = self.words[OWN_AT];
        match (own, self.fault) {
            (0, Fault::UnreadTableChecked) | (1, _) => self.check_stored(),
            (0, _) | (2, Fault::Own2Taken) | (_, Fault::BadTableTaken) => Ok(()),
            (_, Fault::LowHalfOfOwn) if own as u32 == 0 => Ok(()),
            (_, Fault::LowHalfOfOwn) if own as u32 == 1 => self.check_stored(),
            (2, _) => Err(OWN_2),
            _ if own as u32 <= 1 => Err(OWN_HIGH),
            _ => Err(OWN_ABOVE),
        }
    }

    /// Where that is tried: just after 3, or by a fault elsewhere and not there.
    pub fn check_table_unless(&self, fault: Fault) -> Result<(), Ending> {
        if self.fault == fault {
            return Ok(());
        }
        self.check_table()
    }

    pub fn check_table_if(&self, fault: Fault) -> Result<(), Ending> {
        if self.fault != fault {
            return Ok(());
        }
        self.check_table()
    }

    fn check_stored(&self) -> Result<(), Ending> {
        let table = stored_table(self.words);
        match (lacks(&table), self.fault) {
            (0, _) | (_, Fault::BadTableTaken) | (1, Fault::LacksOneTaken) => Ok(()),
            (_, Fault::SumJudged) if table.iter().map(|&byte| u64::from(byte)).sum::<u64>() == 255 * 128 => Ok(()),
            (_, Fault::LastEntryUnread) if lacks(&table[..TABLE_BYTES - 1]) == 1 => Ok(()),
            (1, _) => Err(STORED_LACKS_ONE),
            _ => Err(STORED_LACKS),
        }
    }
}
