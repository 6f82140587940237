//! Places in a published file, named without quoting it, and new text for them.

use std::ops::Range;

pub mod sha256;

/// What the published files' names begin with where they stand.
const PUBLISHED_NAME: &str = "src--crates--openmvg-features--src--extraction--alp--";

/// The name under which a published file stands in its folder.
pub fn published_name(file: &str) -> String {
    format!("{PUBLISHED_NAME}{file}.txt")
}

/// A piece of a file, written `LINE.COLUMN+LENGTH HASH`. Lines and columns count from 1, columns and lengths in bytes.
pub struct Place {
    line: usize,
    column: usize,
    length: usize,
    hash: String,
}

impl Place {
    /// The place that the words name.
    pub fn read(words: &str) -> Result<Place, String> {
        let parts = || -> Option<Place> {
            let (at, hash) = words.trim().split_once(' ')?;
            let (line, rest) = at.split_once('.')?;
            let (column, length) = rest.split_once('+')?;
            Some(Place {
                line: line.parse().ok()?,
                column: column.parse().ok()?,
                length: length.parse().ok()?,
                hash: hash.trim().into(),
            })
        };
        parts().ok_or_else(|| format!("`{words}` is not LINE.COLUMN+LENGTH HASH"))
    }

    /// The place of a piece of the text.
    pub fn of(text: &str, piece: Range<usize>) -> Place {
        let line_start = text[..piece.start].rfind('\n').map_or(0, |end| end + 1);
        Place {
            line: text[..piece.start].matches('\n').count() + 1,
            column: piece.start - line_start + 1,
            length: piece.len(),
            hash: hash(text, piece),
        }
    }

    /// As it is read.
    pub fn words(&self) -> String {
        let Place {
            line,
            column,
            length,
            hash,
        } = self;
        format!("{line}.{column}+{length} {hash}")
    }

    /// Where the place stands in the text, if the text there is what it was.
    pub fn find(&self, text: &str) -> Result<Range<usize>, String> {
        let before = text.split_inclusive('\n').take(self.line.saturating_sub(1));
        let start = before.map(str::len).sum::<usize>() + self.column.saturating_sub(1);
        let piece = start..start + self.length;
        if text.get(piece.clone()).is_some() && hash(text, piece.clone()) == self.hash {
            return Ok(piece);
        }
        Err(format!(
            "{} is out of place: another text stands there now. Look where its line has gone and write what \
             `oracle/place FILE LINE TOKEN` prints",
            self.words()
        ))
    }
}

/// Twelve digits for the piece together with the whole lines that it stands in: a token alone would say little.
fn hash(text: &str, piece: Range<usize>) -> String {
    let first = text[..piece.start].rfind('\n').map_or(0, |end| end + 1);
    let last = text[piece.end..]
        .find('\n')
        .map_or(text.len(), |end| piece.end + end);
    let marked = format!("{}\n{}", &text[piece], &text[first..last]);
    sha256::hex(marked.as_bytes())[..12].into()
}

/// New text for a place. In it `` `old` `` is the text that stood there, another place between backquotes a copy of the text at
/// that place, and \n a line's end.
pub struct Edit {
    pub at: Place,
    pub new: String,
}

/// The text with all edits made. Of an edit inside another only what the outer one's `old` keeps is seen.
pub fn edited(text: &str, edits: &[&Edit]) -> Result<String, String> {
    let mut found = Vec::new();
    for edit in edits {
        found.push((edit.at.find(text)?, edit.new.as_str()));
    }
    found.sort_by_key(|(piece, _)| (piece.start, usize::MAX - piece.end));
    within(text, 0..text.len(), &found)
}

/// A part of the text with the edits inside it made, given outer before inner and left before right.
fn within(
    text: &str,
    part: Range<usize>,
    edits: &[(Range<usize>, &str)],
) -> Result<String, String> {
    let (mut out, mut at, mut rest) = (String::new(), part.start, edits);
    while let Some(((piece, new), others)) = rest.split_first() {
        let inner = others
            .iter()
            .take_while(|(other, _)| other.start < piece.end)
            .count();
        if others[..inner]
            .iter()
            .any(|(other, _)| other.end > piece.end)
        {
            return Err(format!("two edits overlap at `{new}`"));
        }
        out.push_str(&text[at..piece.start]);
        for (index, part) in new.split('`').enumerate() {
            match part {
                _ if index % 2 == 0 => out.push_str(&part.replace("\\n", "\n")),
                "old" => out.push_str(&within(text, piece.clone(), &others[..inner])?),
                copied => out.push_str(&text[Place::read(copied)?.find(text)?]),
            }
        }
        (at, rest) = (piece.end, &others[inner..]);
    }
    out.push_str(&text[at..part.end]);
    Ok(out)
}
