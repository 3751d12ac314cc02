//! The sections' rows.

use std::iter::repeat_n;
use std::ops::Range;

use chronicle::layout::{self, Counts, Sections};

use crate::failure::Failure;
use crate::output::Output;
use crate::rows::{hexadecimal, quoted, Object};
use crate::terminal::shown;

/// What is told of a row: its text, and its keys with their values in JSON.
type Told = (String, Vec<(&'static str, String)>);

/// A section: what its rows are called, where it lies, their width, and what is told of one.
type Section = (&'static str, Range<usize>, usize, fn(&[u8]) -> Told);

/// How the rows of a section are named that own others, by number and bytes.
type Named = fn(usize, &[u8]) -> String;

/// Tells how many rows every section of a record has that is long enough for them, and the rows if they are
/// asked for.
pub fn describe(
    bytes: &[u8],
    counts: &Counts,
    with_rows: bool,
    out: &mut Output<'_>,
) -> Result<(), Failure> {
    let at = counts.sections();
    for (name, lies, width, told) in sections(&at) {
        let section = bytes.get(lies.clone()).unwrap_or(&[]);
        heading(name, section.len() / width, lies.start, section.len(), out)?;
        if with_rows {
            let mut owners = owners(bytes, name, &at);
            for (row, bytes) in section.chunks_exact(width).enumerate() {
                let place =
                    Place { name, row, offset: lies.start + row * width, owner: owners.next() };
                tell(place, told(bytes), out)?;
            }
        }
    }
    strings(bytes, at.strings, with_rows, out)
}

fn sections(at: &Sections) -> [Section; 9] {
    [
        ("country", at.countries.clone(), layout::COUNTRY, country),
        ("previous tag", at.previous_tags.clone(), layout::PREVIOUS_TAG, previous_tag),
        ("switch", at.switches.clone(), layout::SWITCH, switch),
        ("province", at.provinces.clone(), layout::PROVINCE, province),
        ("owner event", at.owner_events.clone(), layout::OWNER_EVENT, owner_event),
        ("war", at.wars.clone(), layout::WAR, war),
        ("war event", at.war_events.clone(), layout::WAR_EVENT, war_event),
        ("ledger name", at.ledger_names.clone(), layout::LEDGER_NAME, ledger_name),
        ("ledger point", at.points.clone(), layout::POINT, point),
    ]
}

/// For each row of a section that others own, the name of its owner.
fn owners<'a>(bytes: &'a [u8], name: &str, at: &Sections) -> Box<dyn Iterator<Item = String> + 'a> {
    let of_country: Named = |_, row| format!("country {}", tag(row, 0));
    let (lie, width, count_at, named): (_, usize, usize, Named) = match name {
        "previous tag" => (&at.countries, layout::COUNTRY, 8, of_country),
        "switch" => (&at.countries, layout::COUNTRY, 10, of_country),
        "owner event" => {
            (&at.provinces, layout::PROVINCE, 5, |_, row| format!("province {}", short(row, 0)))
        }
        "war event" => (&at.wars, layout::WAR, 0, |number, _| format!("war {number}")),
        "ledger point" => (&at.ledger_names, layout::LEDGER_NAME, 3, |_, row| {
            format!("ledger of {}", tag(row, 0))
        }),
        _ => return Box::new(std::iter::empty()),
    };
    let rows = bytes.get(lie.clone()).unwrap_or(&[]).chunks_exact(width).enumerate();
    Box::new(rows.flat_map(move |(number, row)| repeat_n(named(number, row), short(row, count_at))))
}

/// Where a row stands, and the name of the row that owns it.
struct Place<'a> {
    name: &'a str,
    row: usize,
    offset: usize,
    owner: Option<String>,
}

/// Strings are as long as they say, up to the end of the record.
fn strings(
    bytes: &[u8],
    start: usize,
    with_rows: bool,
    out: &mut Output<'_>,
) -> Result<(), Failure> {
    let mut rest = bytes.get(start..).unwrap_or(&[]);
    heading("string", strings_in(rest), start, rest.len(), out)?;
    if !with_rows {
        return Ok(());
    }
    let (mut row, mut offset) = (0, start);
    while let Some((&length, behind)) = rest.split_first() {
        let (string, others) = behind.split_at(behind.len().min(usize::from(length)));
        let mut fields = vec![("text", quoted(&String::from_utf8_lossy(string)))];
        if std::str::from_utf8(string).is_err() {
            fields.push(("text_bytes", quoted(&hexadecimal(string))));
        }
        let told = (format!("\"{}\"", shown(string)), fields);
        tell(Place { name: "string", row, offset, owner: None }, told, out)?;
        (row, offset, rest) = (row + 1, offset + 1 + string.len(), others);
    }
    Ok(())
}

fn strings_in(mut rest: &[u8]) -> usize {
    let mut strings = 0;
    while let Some((&length, behind)) = rest.split_first() {
        rest = behind.get(usize::from(length)..).unwrap_or(&[]);
        strings += 1;
    }
    strings
}

fn heading(
    name: &str,
    rows: usize,
    start: usize,
    length: usize,
    out: &mut Output<'_>,
) -> Result<(), Failure> {
    let rows = plural(rows, "row");
    Ok(out.detail(format_args!("{name}: {rows}, {} at offset {start}", plural(length, "byte")))?)
}

fn tell(
    Place { name, row, offset, owner }: Place<'_>,
    (text, fields): Told,
    out: &mut Output<'_>,
) -> Result<(), Failure> {
    let of = owner.as_ref().map_or_else(String::new, |owner| format!("  ({owner})"));
    Ok(out.row(format_args!("  row {row:<6} at {offset:<8} {text}{of}"), || {
        let object = Object::new().text("section", name).plain("row", row).plain("offset", offset);
        let object = match owner {
            Some(owner) => object.text("of", owner),
            None => object,
        };
        fields.into_iter().fold(object, |object, (key, value)| object.plain(key, value))
    })?)
}

fn country(row: &[u8]) -> Told {
    let (tag, cities) = (tag(row, 0), long(row, 4) as i32);
    let [human, was_player, has_switched] = [1, 2, 4].map(|bit| row[3] & bit != 0);
    let flags =
        [(human, ", human"), (was_player, ", was player"), (has_switched, ", has switched")];
    let flags: String = flags.iter().filter(|(set, _)| *set).map(|(_, name)| *name).collect();
    let [previous, switches] = [8, 10].map(|at| short(row, at));
    let owns = format!("{}, {}", plural(previous, "previous tag"), plural(switches, "switch"));
    (
        format!("{tag}{flags}, cities: {cities}, {owns}"),
        vec![
            ("tag", quoted(&tag)),
            ("human", human.to_string()),
            ("was_player", was_player.to_string()),
            ("has_switched_nation", has_switched.to_string()),
            ("num_of_cities", cities.to_string()),
            ("previous_tags", previous.to_string()),
            ("switches", switches.to_string()),
        ],
    )
}

fn previous_tag(row: &[u8]) -> Told {
    let tag = tag(row, 0);
    (tag.clone(), vec![("tag", quoted(&tag))])
}

fn switch(row: &[u8]) -> Told {
    let (date, from) = (date(row, 0), tag(row, 4));
    (format!("{date} from {from}"), vec![("date", quoted(&date)), ("from", quoted(&from))])
}

fn province(row: &[u8]) -> Told {
    let (id, owner, events) = (short(row, 0), tag(row, 2), short(row, 5));
    (
        format!("id {id}, owner {owner}, {}", plural(events, "event")),
        vec![("id", id.to_string()), ("owner", quoted(&owner)), ("events", events.to_string())],
    )
}

fn owner_event(row: &[u8]) -> Told {
    let (date, tag) = (date(row, 0), tag(row, 4));
    (format!("{date} to {tag}"), vec![("date", quoted(&date)), ("tag", quoted(&tag))])
}

fn war(row: &[u8]) -> Told {
    let events = short(row, 0);
    (plural(events, "event"), vec![("events", events.to_string())])
}

fn war_event(row: &[u8]) -> Told {
    let (date, kind, tag) = (date(row, 0), row[4], tag(row, 5));
    let names = ["joins as attacker", "joins as defender", "leaves as attacker"];
    let names = [&names[..], &["leaves as defender", "is in a battle"]].concat();
    let told = names.get(usize::from(kind)).copied().unwrap_or("has an unknown event");
    (
        format!("{date} {tag} {told}"),
        vec![("date", quoted(&date)), ("kind", kind.to_string()), ("tag", quoted(&tag))],
    )
}

fn ledger_name(row: &[u8]) -> Told {
    let (tag, points) = (tag(row, 0), short(row, 3));
    let told = format!("{tag}, {}", plural(points, "point"));
    (told, vec![("tag", quoted(&tag)), ("points", points.to_string())])
}

fn point(row: &[u8]) -> Told {
    let (year, value) = (short(row, 0), long(row, 2) as i32);
    let fields = vec![("year", year.to_string()), ("value", value.to_string())];
    (format!("{year:04}: {value}"), fields)
}

fn plural(count: usize, name: &str) -> String {
    match count {
        1 => format!("1 {name}"),
        _ if name.ends_with("ch") => format!("{count} {name}es"),
        _ => format!("{count} {name}s"),
    }
}

/// A tag as it stands, whatever its bytes.
fn tag(row: &[u8], at: usize) -> String {
    row[at..at + 3].escape_ascii().to_string()
}

/// A date as it stands, whatever its number.
pub fn date(row: &[u8], at: usize) -> String {
    let word = long(row, at);
    format!("{:04}-{:02}-{:02}", word / 10_000, word / 100 % 100, word % 100)
}

/// The 16 bits at a place, low byte first.
pub fn short(row: &[u8], at: usize) -> usize {
    usize::from(u16::from_le_bytes([row[at], row[at + 1]]))
}

/// The 32 bits at a place, low byte first.
pub fn long(row: &[u8], at: usize) -> u32 {
    u32::from_le_bytes([row[at], row[at + 1], row[at + 2], row[at + 3]])
}
