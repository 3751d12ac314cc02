//! Where rows go: text for people, or an object or a line of cells for programs.

use std::fmt;
use std::io::{self, Write};

use chronicle::Refusal;

use crate::progress::Progress;
use crate::rows::Object;

/// For whom rows are written.
#[derive(Clone, Copy, Debug, PartialEq, Eq)]
pub enum Form {
    /// People.
    Text,
    /// Programs, an object a line.
    Json,
    /// Tables, under these columns.
    Csv(&'static [&'static str]),
}

/// Standard output, and whom it is for.
pub struct Output<'a> {
    pub form: Form,
    pub to: &'a mut dyn Write,
    /// Of the work before the first row.
    pub progress: Option<Progress>,
}

impl Output<'_> {
    /// Before the rows: the names of the columns, where there are columns.
    pub fn headings(&mut self) -> io::Result<()> {
        match self.form {
            Form::Csv(columns) => writeln!(self.to, "{}", columns.join(",")),
            Form::Text | Form::Json => Ok(()),
        }
    }

    /// A row: a line of text, an object, or cells.
    pub fn row(
        &mut self,
        text: fmt::Arguments<'_>,
        object: impl FnOnce() -> Object,
    ) -> io::Result<()> {
        self.progress = None;
        match self.form {
            Form::Text => writeln!(self.to, "{text}"),
            Form::Json => writeln!(self.to, "{}", object().json()),
            Form::Csv(columns) => match object().csv(columns) {
                Some(cells) => writeln!(self.to, "{cells}"),
                None => Ok(()),
            },
        }
    }

    /// A line that belongs to the row before, for people: programs have it in the row.
    pub fn detail(&mut self, text: fmt::Arguments<'_>) -> io::Result<()> {
        self.progress = None;
        match self.form {
            Form::Text => writeln!(self.to, "{text}"),
            Form::Json | Form::Csv(_) => Ok(()),
        }
    }

    /// A line beside the answer, on standard error, for people.
    pub fn remark(&mut self, text: fmt::Arguments<'_>) {
        if self.form == Form::Text {
            self.warn(text);
        }
    }

    /// The same, also for those who start a program.
    pub fn warn(&mut self, text: fmt::Arguments<'_>) {
        self.progress = None;
        // If nobody listens, nothing is said.
        let _ = writeln!(io::stderr(), "chronicle: {text}");
    }
}

/// An object with a refusal's number and words, and what was short where that is known.
pub fn refused(object: Object, refusal: Refusal) -> Object {
    let object = object
        .plain("refused", refusal.number())
        .text("words", refusal.words())
        .text("advice", refusal.advice());
    match refusal {
        Refusal::NoRoom(Some(short)) => {
            object.plain("room", short.room).plain("needed", short.needed)
        }
        _ => object,
    }
}
