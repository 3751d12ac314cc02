//! What a person may select for a page, and what is nearly a selection.

use crate::generate::{repeat, Random};
use crate::lists::NOBODY;
use crate::pack::Tag;
use crate::rows::Nation;

/// The bytes of a selection of these tags.
///
/// ```
/// use chronicle_trial::adversary::selections::selection;
///
/// assert_eq!(selection(&[*b"GBR", *b"FRA"]), b"GBR\nFRA\n");
/// ```
pub fn selection(tags: &[Tag]) -> Vec<u8> {
    tags.iter().flat_map(|&[a, b, c]| [a, b, c, b'\n']).collect()
}

/// Up to a dozen tags: those that nations are stored under, began with or have now, those that
/// occur besides, and unknown ones; often some of them again.
///
/// ```
/// use chronicle_trial::{adversary::selections::draw, generate::Random};
///
/// let tags = draw(&mut Random::new(1), &[], &[*b"ENG"]);
/// assert!(tags.iter().all(|tag| [*b"ENG", *b"0zZ", *b"Zz0"].contains(tag)));
/// ```
pub fn draw(random: &mut Random, nations: &[Nation], others: &[Tag]) -> Vec<Tag> {
    let of_nations: [fn(&Nation) -> Tag; 3] = [|n| n.stored, |n| n.initial, |n| n.latest];
    let mut tag = || match (random.below(8), nations.len(), others.len()) {
        (0, ..) => random.pick(&NOBODY),
        (1, _, 1..) => random.pick(others),
        (_, 1.., _) => random.pick(&of_nations)(&nations[random.below(nations.len())]),
        _ => random.pick(&NOBODY),
    };
    let mut tags = repeat(6, &mut tag);
    let count = random.below(7);
    tags.truncate(count);
    let again = random.below(7);
    if !tags.is_empty() {
        let repeated = repeat(again, || random.pick(&tags));
        tags.extend(repeated);
    }
    tags
}

/// What a selection is made into that is none.
type Spoiler = fn(&mut Random, &mut Vec<u8>);

const SPOILERS: [Spoiler; 7] = [
    // The last line feed is missing, or is all there is behind the last one.
    |_, bytes| bytes.truncate(bytes.len() - 1),
    |_, bytes| bytes.push(b'\n'),
    // Lines that end otherwise, an empty one, a blank before a tag.
    |random, bytes| put(random, bytes, 3, b'\r'),
    |random, bytes| put(random, bytes, 0, b'\n'),
    |random, bytes| put(random, bytes, 0, b' '),
    // A byte that no tag has; another one in place of a line feed.
    |random, bytes| change(random, bytes, b"_/:@[`{\x00\xff\n"),
    |random, bytes| change_end(random, bytes, b" \r\x00\x0bA"),
];

/// Nearly a selection of these tags, and none.
///
/// ```
/// use chronicle_trial::{adversary::selections::spoiled, generate::Random, model};
///
/// let mut random = Random::new(1);
/// for _ in 0..100 {
///     assert_eq!(model::selected(&spoiled(&mut random, &[*b"GBR", *b"FRA"])), None);
///     assert_eq!(model::selected(&spoiled(&mut random, &[])), None);
/// }
/// ```
pub fn spoiled(random: &mut Random, tags: &[Tag]) -> Vec<u8> {
    let mut bytes = selection(if tags.is_empty() { &NOBODY } else { tags });
    random.pick(&SPOILERS)(random, &mut bytes);
    bytes
}

/// Puts a byte before so many bytes of a line are past.
fn put(random: &mut Random, bytes: &mut Vec<u8>, past: usize, byte: u8) {
    let line = random.below(bytes.len() / 4);
    bytes.insert(4 * line + past, byte);
}

fn change(random: &mut Random, bytes: &mut [u8], others: &[u8]) {
    let line = random.below(bytes.len() / 4);
    bytes[4 * line + random.below(3)] = random.pick(others);
}

fn change_end(random: &mut Random, bytes: &mut [u8], others: &[u8]) {
    let line = random.below(bytes.len() / 4);
    bytes[4 * line + 3] = random.pick(others);
}
