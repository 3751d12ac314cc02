//! What refused bytes look like, if that is something well known.

use std::fmt;

use chronicle::raw::check;
use chronicle::Refusal;

use crate::rows::Object;

/// What bytes look like.
#[derive(Debug)]
pub struct Sight {
    /// In a word, for programs.
    name: &'static str,
    /// In words, with what to do.
    words: String,
}

impl fmt::Display for Sight {
    fn fmt(&self, f: &mut fmt::Formatter<'_>) -> fmt::Result {
        f.write_str(&self.words)
    }
}

impl Sight {
    /// The same for programs.
    pub fn object(&self) -> Object {
        Object::new().text("sight", self.name).text("words", &self.words)
    }
}

/// How well-known files open, what each is called, and what to do with it.
const OPENINGS: [(&[u8], &str, &str); 8] = [
    (
        b"EU4txt",
        "save",
        "this is a save of the game, as text; give the record that the host makes of it",
    ),
    (
        b"EU4bin",
        "save",
        "this is a save of the game, as binary; give the record that the host makes of it",
    ),
    (b"PK\x03\x04", "zip", "this is a zip archive, as a compressed save is one; unpack it first"),
    (b"PK\x05\x06", "zip", "this is an empty zip archive"),
    (b"\x1f\x8b", "gzip", "this is packed by gzip; unpack it first, by `gzip -d`"),
    (
        b"\xef\xbb\xbf",
        "byte order mark",
        "a byte order mark (ef bb bf) stands first, as before text; leave out these 3 bytes",
    ),
    (
        b"\xff\xfe",
        "byte order mark",
        "this opens as text in UTF-16 does (ff fe); write the record as bytes, not as text",
    ),
    (
        b"\xfe\xff",
        "byte order mark",
        "this opens as text in UTF-16 does (fe ff); write the record as bytes, not as text",
    ),
];

/// What refused bytes look like.
pub fn sight(bytes: &[u8]) -> Option<Sight> {
    if bytes.is_empty() {
        let words = "this is an empty file: nothing was written to it, or not yet".to_string();
        return Some(Sight { name: "empty", words });
    }
    let opening = OPENINGS.iter().find(|(opening, ..)| bytes.starts_with(opening));
    if let Some((_, name, words)) = opening {
        return Some(Sight { name, words: words.to_string() });
    }
    base64(bytes).or_else(|| carriage_returns(bytes)).or_else(|| text(bytes))
}

/// `ATL` and a version, in the letters of base64, and nothing but such letters.
fn base64(bytes: &[u8]) -> Option<Sight> {
    let letter = |&byte: &u8| byte.is_ascii_alphanumeric() || b"+/-_=\r\n \t".contains(&byte);
    let good = bytes.starts_with(b"QVRM") && bytes.len() > 8 && bytes.iter().all(letter);
    let words = "this is a record in base64; decode it first, by `base64 -d`".to_string();
    good.then_some(Sight { name: "base64", words })
}

/// Each line feed with a carriage return before it: without these the rows fit together.
fn carriage_returns(bytes: &[u8]) -> Option<Sight> {
    let at = |place: usize| bytes[place..].starts_with(b"\r\n");
    let first = (0..bytes.len()).find(|&place| at(place))?;
    let kept = |&(place, _): &(usize, &u8)| !at(place);
    let undone: Vec<u8> = bytes.iter().enumerate().filter(kept).map(|(_, &byte)| byte).collect();
    let words = format!(
        "each line feed has a carriage return before it (0d 0a, first at offset {first}), as after a transfer as \
         text; take out the {} carriage returns, or copy the file as binary",
        bytes.len() - undone.len()
    );
    fits(&undone).then_some(Sight { name: "CRLF", words })
}

/// Bytes that were taken for text and written as UTF-8.
fn text(bytes: &[u8]) -> Option<Sight> {
    let text = std::str::from_utf8(bytes)
        .ok()
        .filter(|text| text.starts_with("ATL") && !text.is_ascii())?;
    let replaced = text.matches('\u{fffd}').count();
    if replaced > 0 {
        let words = format!(
            "{replaced} bytes were replaced by U+FFFD (ef bf bd), as where a record is read as UTF-8 text; they are \
             lost: pack it again, and write it as bytes"
        );
        return Some(Sight { name: "UTF-8", words });
    }
    let undone: Option<Vec<u8>> =
        text.chars().map(|letter| u8::try_from(u32::from(letter)).ok()).collect();
    let words = "each byte from 80 on has become two, as where bytes are written as UTF-8 text; turn it back, by \
                 `iconv -f UTF-8 -t LATIN1`, or write it as bytes"
        .to_string();
    undone.filter(|undone| fits(undone)).map(|_| Sight { name: "UTF-8", words })
}

/// Whether the sizes of a record are right, whatever else may be wrong with it.
fn fits(bytes: &[u8]) -> bool {
    let wrong = [Refusal::NotARecord, Refusal::UnknownVersion, Refusal::SizesDisagree];
    check(bytes).err().is_none_or(|refusal| !wrong.contains(&refusal))
}
