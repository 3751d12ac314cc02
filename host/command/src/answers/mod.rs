//! The answers, command by command.

mod check;
mod holders;
mod living;
mod nations;
mod owners;
mod page;
mod played;
mod resolver;
mod tags;

use chronicle::{Chronicle, CountryTag, Eu4Date, Record, Refusal};

use crate::arguments::Question;
use crate::failure::{name, Failure};
use crate::input::bytes_of;
use crate::output::Output;
use crate::progress::Progress;
use crate::{describe, timeline};

/// Answers a question about the record in a file.
pub fn answer(question: &Question, out: &mut Output<'_>) -> Result<(), Failure> {
    if question.command.name == "check" {
        return check::check(&question.files, out);
    }
    out.progress = Progress::of(format!("{} of {}", question.command.name, name(question.file())));
    let bytes = bytes_of(question.file())?;
    if question.command.name == "describe" {
        return describe::describe(&bytes, question, out);
    }
    let record = Record::open(&bytes).map_err(|refusal| refused(question, refusal))?;
    of_record(&Asked { question, record: &record }, out)
}

fn refused(question: &Question, refusal: Refusal) -> Failure {
    Failure::Refused { file: question.file().to_owned(), refusal, more: None }
}

/// What is asked of an accepted record.
struct Asked<'a> {
    question: &'a Question,
    record: &'a Record<'a>,
}

fn of_record(asked: &Asked<'_>, out: &mut Output<'_>) -> Result<(), Failure> {
    match asked.question.command.name {
        "owners" => owners::all(asked, out),
        "on" => owners::on(asked, out),
        "holders" => holders::holders(asked, out),
        "nations" => nations::nations(asked, out),
        "living" => nations::living(asked, out),
        "resolve" => resolver::resolve(asked, out),
        "initial" => resolver::initial(asked, out),
        "wars" => nations::wars(asked, out),
        "ledger" => nations::ledger(asked, out),
        "players" => played::players(asked, out),
        "histories" => played::histories(asked, out),
        "start" => played::start(asked, out),
        "page" => page::page(asked, out),
        _ => drawn(asked, out),
    }
}

/// The picture, of the nations that are asked for.
fn drawn(asked: &Asked<'_>, out: &mut Output<'_>) -> Result<(), Failure> {
    let shown = timeline::Shown {
        tags: asked.tags()?,
        from: asked.day("--from")?,
        to: asked.day("--to")?,
        changed_only: asked.question.has("--changed-only"),
        part: asked.question.number("--part")?.unwrap_or(1),
    };
    let chronicle = asked.chronicle()?;
    let known = tags::remarks(asked, &chronicle, &shown.tags, out);
    let picture = timeline::picture(&chronicle, &shown).map_err(Failure::Usage)?;
    if picture.parts > 1 {
        let (part, parts) = (shown.part, picture.parts);
        out.remark(format_args!("this is picture {part} of {parts}: `--part N` draws another"));
    }
    out.progress = None;
    write!(out.to, "{}", picture.svg)?;
    tags::strict(asked, known)
}

impl<'a> Asked<'a> {
    fn chronicle(&self) -> Result<Chronicle<'a>, Failure> {
        self.or_refused(self.record.chronicle())
    }

    fn or_refused<T>(&self, answer: Result<T, Refusal>) -> Result<T, Failure> {
        answer.map_err(|refusal| refused(self.question, refusal))
    }

    /// The argument with this number, as a tag.
    fn tag(&self, number: usize) -> Result<CountryTag, Failure> {
        self.told(self.question.rest.get(number).map(String::as_str), "no tag")
    }

    /// All arguments, as tags.
    fn tags(&self) -> Result<Vec<CountryTag>, Failure> {
        (0..self.question.rest.len()).map(|number| self.tag(number)).collect()
    }

    /// The argument with this number, as a date.
    fn date(&self, number: usize) -> Result<Eu4Date, Failure> {
        self.told(self.question.rest.get(number).map(String::as_str), "no day")
    }

    /// The day of an option, if it is given.
    fn day(&self, option: &str) -> Result<Option<Eu4Date>, Failure> {
        self.question.value(option).map(|day| self.told(Some(day), "no day")).transpose()
    }

    fn told<T: std::str::FromStr>(&self, word: Option<&str>, wrong: &str) -> Result<T, Failure> {
        let word = word.unwrap_or_default();
        word.parse().map_err(|_| Failure::Refused {
            file: self.question.file().to_owned(),
            refusal: Refusal::BadQuestion,
            more: Some(format!("`{}` is {wrong}", crate::terminal::shown(word.as_bytes()))),
        })
    }
}
