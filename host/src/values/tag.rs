use std::error::Error;
use std::fmt;
use std::str::FromStr;

/// A text, bytes or a word that is no tag's.
///
/// ```
/// use chronicle::{CountryTag, NotATag};
///
/// let refused = "England".parse::<CountryTag>().unwrap_err();
/// assert_eq!(refused, NotATag);
/// assert_eq!(refused.to_string(), "no tag: it takes three ASCII letters, digits or `-`, as in ENG");
/// ```
#[derive(Clone, Copy, Debug, Default, PartialEq, Eq, PartialOrd, Ord, Hash)]
pub struct NotATag;

impl fmt::Display for NotATag {
    fn fmt(&self, f: &mut fmt::Formatter<'_>) -> fmt::Result {
        f.pad("no tag: it takes three ASCII letters, digits or `-`, as in ENG")
    }
}

impl Error for NotATag {}

/// The tag of a country: three ASCII letters, digits or `-`, such as `ENG`.
///
/// Tags are ordered by their bytes, and compare with texts.
///
/// ```
/// use chronicle::{CountryTag, NotATag};
///
/// let tag: CountryTag = "ENG".parse()?;
/// assert_eq!(tag, "ENG");
/// assert_eq!((u32::from(tag), CountryTag::try_from(0x45_4e_47)), (0x45_4e_47, Ok(tag)));
/// assert_eq!(format!("{tag:>5}"), "  ENG");
/// assert_eq!("England".parse::<CountryTag>(), Err(NotATag));
/// # Ok::<(), NotATag>(())
/// ```
#[derive(Clone, Copy, PartialEq, Eq, PartialOrd, Ord, Hash)]
pub struct CountryTag([u8; 3]);

impl CountryTag {
    /// `---`, the tag of land without an owner.
    pub const NONE: CountryTag = CountryTag::new(*b"---");

    /// The tag of these bytes, for constants.
    ///
    /// # Panics
    ///
    /// If they are no tag's; in a constant that is an error of the compiler. [`create`](Self::create)
    /// refuses instead.
    ///
    /// ```
    /// use chronicle::CountryTag;
    ///
    /// const GBR: CountryTag = CountryTag::new(*b"GBR");
    /// assert_eq!(GBR, "GBR");
    /// ```
    ///
    /// This constant is none:
    ///
    /// ```compile_fail
    /// const SPACE: chronicle::CountryTag = chronicle::CountryTag::new(*b"E N");
    /// # println!("{SPACE}");
    /// ```
    pub const fn new(bytes: [u8; 3]) -> CountryTag {
        let [a, b, c] = bytes;
        assert!(tag_byte(a) && tag_byte(b) && tag_byte(c), "no tag");
        CountryTag(bytes)
    }

    /// The tag that these bytes are.
    ///
    /// # Errors
    ///
    /// [`NotATag`] for another length than three, and for a byte that tags do not use.
    ///
    /// ```
    /// use chronicle::{CountryTag, NotATag};
    ///
    /// assert_eq!(CountryTag::create(b"---"), Ok(CountryTag::NONE));
    /// assert_eq!(CountryTag::create("E N"), Err(NotATag));
    /// assert_eq!(CountryTag::create("ENGL"), Err(NotATag));
    /// ```
    pub fn create<T: AsRef<[u8]>>(bytes: T) -> Result<CountryTag, NotATag> {
        let bytes: [u8; 3] = bytes.as_ref().try_into().map_err(|_| NotATag)?;
        if bytes.into_iter().all(tag_byte) {
            Ok(CountryTag(bytes))
        } else {
            Err(NotATag)
        }
    }

    /// The tag that has this word, if one does.
    ///
    /// ```
    /// use chronicle::CountryTag;
    ///
    /// assert_eq!(CountryTag::from_word(2960685), Some(CountryTag::NONE));
    /// assert_eq!(CountryTag::from_word(0), None);
    /// ```
    pub fn from_word(word: u32) -> Option<CountryTag> {
        let tag = CountryTag::create(CountryTag::written(word).0).ok();
        tag.filter(|tag| tag.word() == word)
    }

    /// The tag of a word that the library wrote as one.
    pub(crate) fn written(word: u32) -> CountryTag {
        let [_, a, b, c] = word.to_be_bytes();
        CountryTag([a, b, c])
    }

    /// Its word in a row: a×65536 + b×256 + c of its bytes.
    ///
    /// ```
    /// assert_eq!(chronicle::CountryTag::NONE.word(), 2960685);
    /// ```
    pub fn word(self) -> u32 {
        let [a, b, c] = self.0;
        u32::from_be_bytes([0, a, b, c])
    }

    /// Its three bytes.
    ///
    /// ```
    /// assert_eq!(chronicle::CountryTag::NONE.bytes(), *b"---");
    /// ```
    pub fn bytes(self) -> [u8; 3] {
        self.0
    }

    /// Its three bytes, lent.
    ///
    /// ```
    /// assert_eq!(chronicle::CountryTag::NONE.as_bytes(), b"---");
    /// ```
    pub const fn as_bytes(&self) -> &[u8; 3] {
        &self.0
    }

    /// Its three letters.
    ///
    /// ```
    /// assert_eq!(chronicle::CountryTag::NONE.as_str(), "---");
    /// ```
    pub fn as_str(&self) -> &str {
        std::str::from_utf8(&self.0).unwrap_or("???")
    }

    /// Whether it is `---`, the tag of nobody.
    ///
    /// ```
    /// use chronicle::CountryTag;
    ///
    /// assert!(CountryTag::NONE.is_none() && !CountryTag::new(*b"ENG").is_none());
    /// ```
    pub fn is_none(self) -> bool {
        self == CountryTag::NONE
    }

    /// Whether it is somebody's.
    ///
    /// ```
    /// use chronicle::CountryTag;
    ///
    /// assert!(CountryTag::new(*b"ENG").is_some() && !CountryTag::NONE.is_some());
    /// ```
    pub fn is_some(self) -> bool {
        !self.is_none()
    }
}

const fn tag_byte(byte: u8) -> bool {
    byte.is_ascii_alphanumeric() || byte == b'-'
}

impl FromStr for CountryTag {
    type Err = NotATag;

    fn from_str(text: &str) -> Result<CountryTag, NotATag> {
        CountryTag::create(text)
    }
}

impl TryFrom<u32> for CountryTag {
    type Error = NotATag;

    fn try_from(word: u32) -> Result<CountryTag, NotATag> {
        CountryTag::from_word(word).ok_or(NotATag)
    }
}

impl TryFrom<[u8; 3]> for CountryTag {
    type Error = NotATag;

    fn try_from(bytes: [u8; 3]) -> Result<CountryTag, NotATag> {
        CountryTag::create(bytes)
    }
}

impl TryFrom<&[u8]> for CountryTag {
    type Error = NotATag;

    fn try_from(bytes: &[u8]) -> Result<CountryTag, NotATag> {
        CountryTag::create(bytes)
    }
}

impl TryFrom<&str> for CountryTag {
    type Error = NotATag;

    fn try_from(text: &str) -> Result<CountryTag, NotATag> {
        CountryTag::create(text)
    }
}

impl From<CountryTag> for u32 {
    fn from(tag: CountryTag) -> u32 {
        tag.word()
    }
}

impl From<CountryTag> for [u8; 3] {
    fn from(tag: CountryTag) -> [u8; 3] {
        tag.0
    }
}

impl AsRef<str> for CountryTag {
    fn as_ref(&self) -> &str {
        self.as_str()
    }
}

impl AsRef<[u8]> for CountryTag {
    fn as_ref(&self) -> &[u8] {
        &self.0
    }
}

impl PartialEq<str> for CountryTag {
    fn eq(&self, text: &str) -> bool {
        self.0 == text.as_bytes()
    }
}

impl PartialEq<&str> for CountryTag {
    fn eq(&self, text: &&str) -> bool {
        *self == **text
    }
}

impl PartialEq<CountryTag> for str {
    fn eq(&self, tag: &CountryTag) -> bool {
        tag == self
    }
}

impl PartialEq<CountryTag> for &str {
    fn eq(&self, tag: &CountryTag) -> bool {
        tag == *self
    }
}

impl fmt::Display for CountryTag {
    fn fmt(&self, f: &mut fmt::Formatter<'_>) -> fmt::Result {
        f.pad(self.as_str())
    }
}

impl fmt::Debug for CountryTag {
    fn fmt(&self, f: &mut fmt::Formatter<'_>) -> fmt::Result {
        write!(f, "CountryTag({})", self.as_str())
    }
}
