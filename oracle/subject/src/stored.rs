//! The stored list: families of cases by seed and number, each with its sound answer or the answer's hash.

use crate::{Subject, answer, difference};
use cases::{Case, Knob, edges, expand, turn};

const MAGIC: &[u8; 8] = b"answers1";

/// Answers of a family up to this length are kept whole.
fn whole(family: &str) -> usize {
    match family {
        "scenes" => 600,
        _ => 24,
    }
}

/// An answer as it is kept: its length, and its bytes or their hash.
#[derive(Clone, Debug, PartialEq, Eq)]
pub struct Kept {
    pub length: usize,
    pub bytes: Vec<u8>,
}

impl Kept {
    /// A family's answer.
    pub fn of(family: &str, answer: &[u8]) -> Kept {
        let hashed = || hash(answer.iter().copied().map(u64::from)).to_le_bytes();
        let bytes = match answer.len() > whole(family) {
            true => hashed().to_vec(),
            false => answer.to_vec(),
        };
        Kept {
            length: answer.len(),
            bytes,
        }
    }

    /// What is known of where an answer parts from this one.
    pub fn against(&self, given: &[u8]) -> String {
        if self.length == self.bytes.len() {
            return difference(&self.bytes, given);
        }
        format!(
            "{} bytes expected, {} given, another hash",
            self.length,
            given.len()
        )
    }
}

/// Cases of one family under one seed; an edge family carries its knobs.
pub struct Section {
    pub family: String,
    pub seed: u64,
    pub entries: Vec<Entry>,
}

/// One case's number, knob and kept answer.
pub struct Entry {
    pub number: usize,
    pub knob: Option<Knob>,
    pub kept: Kept,
}

impl Section {
    /// The case of an entry.
    pub fn case(&self, entry: &Entry) -> Case {
        match entry.knob {
            Some(knob) => turn(&self.family, self.seed, entry.number, knob),
            None => expand(&self.family, self.seed, entry.number),
        }
    }

    /// The arguments that rerun an entry alone.
    pub fn label(&self, entry: &Entry) -> String {
        let knob = match entry.knob {
            Some(knob) => format!(" {} {:08x}", knob.place, knob.value.to_bits()),
            None => String::new(),
        };
        format!("{} {} {}{knob}", self.family, self.seed, entry.number)
    }
}

/// FNV-1a over 64 bits, of bytes or of longer words, stirred at the end.
pub(crate) fn hash(words: impl Iterator<Item = u64>) -> u64 {
    let mut value = 0xcbf2_9ce4_8422_2325u64;
    for word in words {
        value = (value ^ word).wrapping_mul(0x0000_0100_0000_01b3);
    }
    value = (value ^ (value >> 30)).wrapping_mul(0xbf58_476d_1ce4_e5b9);
    value ^ (value >> 31)
}

/// The sections as bytes.
pub fn write(sections: &[Section]) -> Vec<u8> {
    let mut out = MAGIC.to_vec();
    for section in sections {
        put(&mut out, section.family.len() as u64);
        out.extend(section.family.as_bytes());
        put(&mut out, section.seed);
        put(&mut out, section.entries.len() as u64);
        for entry in &section.entries {
            put(&mut out, entry.number as u64);
            if let Some(knob) = entry.knob {
                put(&mut out, u64::from(knob.place));
                out.extend(knob.value.to_le_bytes());
            }
            put(&mut out, entry.kept.length as u64);
            out.extend(&entry.kept.bytes);
        }
    }
    out
}

/// A number in groups of seven bits, lowest first.
fn put(out: &mut Vec<u8>, mut value: u64) {
    while value >= 128 {
        out.push(value as u8 | 128);
        value >>= 7;
    }
    out.push(value as u8);
}

struct Reader<'a> {
    bytes: &'a [u8],
}

impl<'a> Reader<'a> {
    fn take(&mut self, count: usize) -> Option<&'a [u8]> {
        let (taken, rest) = self.bytes.split_at_checked(count)?;
        self.bytes = rest;
        Some(taken)
    }

    fn number(&mut self) -> Option<u64> {
        let (mut value, mut shift) = (0u64, 0);
        loop {
            let byte = self.take(1)?[0];
            value |= u64::from(byte & 127) << shift;
            if byte < 128 {
                return Some(value);
            }
            shift += 7;
        }
    }

    fn entry(&mut self, family: &str) -> Option<Entry> {
        let number = self.number()? as usize;
        let knob = match edges::EDGES.contains(&family) {
            true => {
                let place = self.number()? as u32;
                let value = f32::from_le_bytes(self.take(4)?.try_into().ok()?);
                Some(Knob { place, value })
            }
            false => None,
        };
        let length = self.number()? as usize;
        let bytes = self
            .take(if length <= whole(family) { length } else { 8 })?
            .to_vec();
        Some(Entry {
            number,
            knob,
            kept: Kept { length, bytes },
        })
    }

    fn section(&mut self) -> Option<Section> {
        let length = self.number()? as usize;
        let family = String::from_utf8(self.take(length)?.to_vec()).ok()?;
        let seed = self.number()?;
        let count = self.number()?;
        let entries = (0..count)
            .map(|_| self.entry(&family))
            .collect::<Option<_>>()?;
        Some(Section {
            family,
            seed,
            entries,
        })
    }
}

/// The sections of a stored list, or None where the bytes are none.
pub fn read(bytes: &[u8]) -> Option<Vec<Section>> {
    let mut reader = Reader {
        bytes: bytes.strip_prefix(MAGIC)?,
    };
    let mut sections = Vec::new();
    while !reader.bytes.is_empty() {
        sections.push(reader.section()?);
    }
    Some(sections)
}

/// What the replay of one section gave.
pub struct Outcome {
    pub asked: usize,
    pub offered: usize,
    pub differing: usize,
    /// The first entry that differs, with where.
    pub first: Option<String>,
}

/// Replays a section against a subject.
pub fn replay(section: &Section, subject: &mut dyn Subject) -> Outcome {
    let mut outcome = Outcome {
        asked: section.entries.len(),
        offered: 0,
        differing: 0,
        first: None,
    };
    for entry in &section.entries {
        let case = section.case(entry);
        let Some(given) = answer(subject, &case) else {
            continue;
        };
        outcome.offered += 1;
        if Kept::of(&section.family, &given) != entry.kept {
            outcome.differing += 1;
            let told = || format!("{}: {}", section.label(entry), entry.kept.against(&given));
            outcome.first.get_or_insert_with(told);
        }
    }
    outcome
}
