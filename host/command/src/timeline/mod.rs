//! The nations' lives as a picture: a row for each nation, with a bar for as long as it held land.

mod axis;
mod labels;
mod lives;
mod row;
mod svg;

use chronicle::{Chronicle, CountryTag, Eu4Date};

use axis::Axis;
use labels::placed;
use lives::Life;
use svg::{Svg, Text};

/// Left of the bars: the tag that a nation began with.
const LEFT: f64 = 84.0;
/// Right of them: the tag that it came to, and when it ended.
const RIGHT: f64 = 92.0;
/// The bars' own part.
const MIDDLE: f64 = 904.0;
/// Above the first row: title, legend and years.
const TOP: f64 = 84.0;
/// A band of years: above the rows, below them, and between every so many rows.
const BAND: f64 = 18.0;
const ROWS_TO_A_BAND: usize = 40;
/// A date on the axis needs as much, and from there to the middle of a year it is as far.
const DATE_WIDTH: f64 = 66.0;
const TO_A_YEAR: f64 = 24.0;

/// A picture has no more rows than these, and is less than 4,000 pixels high.
const MOST_ROWS: usize = 240;
/// Of nations that nothing befell so many have room in a line.
const TAGS_TO_A_LINE: usize = 36;

/// Colours of bars, by turns: dark enough for white letters.
const COLOURS: [&str; 8] =
    ["#3b6ea5", "#a0522d", "#2e7d5b", "#8a4f9e", "#b03a48", "#5d6b2f", "#1f7a8c", "#7a5c3a"];

/// What is to be drawn.
#[derive(Debug)]
pub struct Shown {
    /// The nations stored under these tags; if there is none, all.
    pub tags: Vec<CountryTag>,
    pub from: Option<Eu4Date>,
    pub to: Option<Eu4Date>,
    /// Only the nations that something befell in that time.
    pub changed_only: bool,
    /// Which of several pictures, from 1.
    pub part: usize,
}

/// One of so many pictures, a whole SVG.
#[derive(Debug)]
pub struct Picture {
    pub svg: String,
    pub parts: usize,
}

/// A row of the picture: a nation, or the tags of nations that nothing befell.
enum Row<'a> {
    Life(&'a Life),
    Tags(String),
}

/// The picture, or why there is none such.
pub fn picture(chronicle: &Chronicle<'_>, shown: &Shown) -> Result<Picture, String> {
    let record = chronicle.record();
    // A record may tell of days after its current date.
    let last = chronicle.entries().map(|entry| entry.date).chain([record.current_date()]).max();
    let (start, end) = (record.start_date(), last.unwrap_or(record.current_date()));
    let from = shown.from.unwrap_or(start).max(start);
    let to = shown.to.unwrap_or(end).min(end);
    if to < from {
        return Err(format!("no day of the campaign, which is told from {start} to {end}, lies between --from and --to"));
    }
    let all = lives::of(chronicle, end);
    let nations = all.len();
    let lives: Vec<Life> = all
        .into_iter()
        .map(|life| life.within(from, to))
        .filter(|life| wanted(life, shown))
        .collect();
    let rows = rows(&lives);
    let parts = rows.len().div_ceil(MOST_ROWS).max(1);
    let Some(part) =
        rows.chunks(MOST_ROWS).nth(shown.part - 1).or((shown.part == 1).then_some(&[]))
    else {
        return Err(format!("there is no picture {}: they are {parts}", shown.part));
    };
    let axis = Axis { start: from, end: to, left: LEFT, width: MIDDLE };
    let which =
        if parts > 1 { format!(", picture {} of {parts}", shown.part) } else { String::new() };
    let title = format!("{}, from {from} to {to}{which}", counted(lives.len(), nations));
    Ok(Picture { svg: drawn(part, &axis, &title), parts })
}

/// Who holds land in that time, or is asked for.
fn wanted(life: &Life, shown: &Shown) -> bool {
    let asked_for = if shown.tags.is_empty() {
        !life.spans.is_empty()
    } else {
        shown.tags.contains(&life.stored())
    };
    asked_for && (life.changed || !shown.changed_only)
}

fn counted(shown: usize, all: usize) -> String {
    let nations = if all == 1 { "nation" } else { "nations" };
    if shown == all {
        return format!("{all} {nations}");
    }
    format!("{shown} of {all} {nations}")
}

/// A row for each nation; of very many, those that nothing befell stand in lines of their tags behind the others.
fn rows(lives: &[Life]) -> Vec<Row<'_>> {
    if lives.len() <= MOST_ROWS {
        return lives.iter().map(Row::Life).collect();
    }
    let (changed, others): (Vec<&Life>, Vec<&Life>) = lives.iter().partition(|life| life.changed);
    let mut rows: Vec<Row<'_>> = changed.into_iter().map(Row::Life).collect();
    if !others.is_empty() {
        rows.push(Row::Tags(format!("{} nations that nothing befell:", others.len())));
    }
    for line in others.chunks(TAGS_TO_A_LINE) {
        let tags: Vec<String> = line.iter().map(|life| life.wears().to_string()).collect();
        rows.push(Row::Tags(tags.join(" ")));
    }
    rows
}

fn drawn(rows: &[Row<'_>], axis: &Axis, title: &str) -> String {
    let places = Places::of(rows.len());
    let mut svg = Svg::new(LEFT + MIDDLE + RIGHT, places.bottom + BAND + 8.0);
    heading(&mut svg, axis, title);
    for (number, drawn) in rows.iter().enumerate() {
        let y = places.top(number);
        if number > 0 && number % ROWS_TO_A_BAND == 0 && matches!(drawn, Row::Life(_)) {
            days(&mut svg, axis, y - 5.0);
        }
        match drawn {
            Row::Life(life) => {
                row::draw(&mut svg, axis, life, (y, places.height), COLOURS[number % COLOURS.len()])
            }
            Row::Tags(tags) => {
                svg.text(Text {
                    x: LEFT,
                    y: y + places.height / 2.0 + 4.0,
                    class: "tags",
                    text: tags,
                });
            }
        }
    }
    days(&mut svg, axis, places.bottom + BAND - 5.0);
    svg.closed()
}

/// Where the rows stand.
struct Places {
    /// From one row to the next.
    height: f64,
    bottom: f64,
}

impl Places {
    /// Many rows are lower than few.
    fn of(rows: usize) -> Places {
        let height = if rows <= 60 { 22.0 } else { 15.0 };
        let places = Places { height, bottom: 0.0 };
        let bottom = rows.checked_sub(1).map_or(TOP, |last| places.top(last) + height);
        Places { bottom, ..places }
    }

    /// The top of a row; between every so many there is a band of years.
    fn top(&self, number: usize) -> f64 {
        TOP + self.height * number as f64 + BAND * (number / ROWS_TO_A_BAND) as f64
    }
}

/// Title, legend, years, and a line down the picture for each of them.
fn heading(svg: &mut Svg, axis: &Axis, title: &str) {
    svg.title(title);
    svg.text(Text { x: LEFT, y: 22.0, class: "title", text: title });
    legend(svg);
    for (x, _) in axis.years() {
        svg.line([x, TOP - 8.0, x, svg.height - BAND - 8.0], "year");
    }
    days(svg, axis, TOP - 12.0);
}

/// What the shapes mean.
fn legend(svg: &mut Svg) {
    let (y, mut x) = (46.0, LEFT);
    let mut told = |svg: &mut Svg, width: f64, words: &str| {
        svg.text(Text { x: x + width + 6.0, y, class: "legend", text: words });
        let shape = x;
        x += width + 6.0 + 6.8 * words.chars().count() as f64 + 22.0;
        shape
    };
    let bar = told(svg, 26.0, "holds land");
    svg.bar([bar, y - 9.0, 26.0, 11.0], COLOURS[0]);
    let gap = told(svg, 26.0, "holds none for a time");
    svg.line([gap, y - 3.5, gap + 26.0, y - 3.5], "gap");
    let mark = told(svg, 30.0, "takes this tag");
    svg.mark([mark, y - 11.0, y + 3.0]);
    svg.text(Text { x: mark + 4.0, y: y - 0.5, class: "bare", text: "TAG" });
    let end = told(svg, 14.0, "holds none from that year on");
    svg.text(Text { x: end + 4.0, y, class: "legend", text: "†" });
}

/// The first day and the last, and the years that have room between, written above this height.
fn days(svg: &mut Svg, axis: &Axis, y: f64) {
    let (first, last) = (axis.start.to_string(), axis.end.to_string());
    svg.text(Text { x: LEFT, y, class: "first", text: &first });
    svg.text(Text { x: LEFT + MIDDLE, y, class: "last", text: &last });
    let room = LEFT + DATE_WIDTH + TO_A_YEAR..=LEFT + MIDDLE - DATE_WIDTH - TO_A_YEAR;
    for (x, year) in axis.years().filter(|(x, _)| room.contains(x)) {
        svg.text(Text { x, y, class: "years", text: &year.to_string() });
    }
}
