//! Compares the Rust, the model and the proved functions on campaigns of the reader's choosing.
//!
//! `compare [CAMPAIGNS] [SEED] [EXTREMES]`: so many small campaigns (default 200,000), a quarter
//! as many damaged records, and so many of the eleven campaigns at the limits (default all).
//! `compare PATH..`: each record, and each record of each folder, that ends in `.atl`.
//!
//! One difference ends the run: the smallest record found to show it is told, stands in difference.atl, and
//! the answers that differ stand side by side. Else the run ends in a table of what was compared and of how
//! often each hard case was met. With `--falsify ANSWER` one of the Rust's answers is made wrong: then a run
//! that does not stop has not looked. The exit status is 1 for a difference, 2 for what cannot be read. The last line
//! of standard output is the verdict, whichever it is.

use std::process::ExitCode;

#[cfg(not(found))]
fn main() -> ExitCode {
    chronicle_oracle::not_found()
}

#[cfg(found)]
mod arguments;
#[cfg(found)]
mod drawn;
#[cfg(found)]
mod limits;
#[cfg(found)]
mod progress;
#[cfg(found)]
mod records;
#[cfg(found)]
mod run;

#[cfg(found)]
fn main() -> ExitCode {
    use arguments::{Arguments, Asked, USAGE};
    use run::Stopped;

    let Some(Arguments { asked, falsified }) = Arguments::of(std::env::args_os().skip(1)) else {
        eprint!("{USAGE}");
        return ExitCode::from(2);
    };
    let outcome = match asked {
        Asked::Help => {
            print!("{USAGE}");
            return ExitCode::SUCCESS;
        }
        Asked::Drawn { campaigns, seed, extremes } => {
            drawn::all(&mut run::Run::new(falsified), campaigns, seed, extremes)
        }
        Asked::Records(paths) => match records::found(&paths) {
            Ok(records) => records::all(&mut run::Run::new(falsified), &records),
            Err(error) => {
                eprintln!("{error}");
                println!("verdict: NOTHING was compared");
                return ExitCode::from(2);
            }
        },
    };
    match outcome {
        Ok(compared) => {
            println!("verdict: no difference in {compared}");
            ExitCode::SUCCESS
        }
        Err(Stopped::Difference(message)) => {
            eprintln!("{message}");
            println!("verdict: a DIFFERENCE, told above on standard error");
            ExitCode::FAILURE
        }
        Err(Stopped::TooLittle(message)) => {
            eprintln!("{message}");
            println!("verdict: no difference, but TOO LITTLE was met to say so");
            ExitCode::FAILURE
        }
    }
}
