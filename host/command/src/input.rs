//! The bytes of a file, as many as a record may have.

use std::ffi::OsStr;
use std::fs::File;
use std::io::{self, Read};

use chronicle::layout::LIMITS;

use crate::failure::Failure;

/// A string has a byte of length, and at most 255 more.
const LONGEST_STRING: usize = 256;

/// No record that is accepted has more bytes: every count at its limit, and every string as long as can be.
pub fn largest_record() -> usize {
    LIMITS.sections().strings + LIMITS.strings * LONGEST_STRING
}

/// The bytes of the file, or of standard input; of more than the largest record has, one byte more than that,
/// which is refused as all of them would be.
pub fn bytes_of(file: &OsStr) -> Result<Vec<u8>, Failure> {
    let read =
        if file == "-" { bounded(io::stdin().lock()) } else { File::open(file).and_then(bounded) };
    read.map_err(|error| Failure::Unreadable(file.to_owned(), error))
}

fn bounded(from: impl Read) -> io::Result<Vec<u8>> {
    let mut bytes = Vec::new();
    from.take(largest_record() as u64 + 1).read_to_end(&mut bytes)?;
    Ok(bytes)
}

/// How many bytes were read; of a file that is too long it is known only that it has more than a record.
pub fn length(bytes: &[u8]) -> String {
    let most = largest_record();
    if bytes.len() > most {
        return format!("more than {most} bytes");
    }
    match bytes.len() {
        1 => "1 byte".to_string(),
        length => format!("{length} bytes"),
    }
}

#[cfg(test)]
mod tests {
    use std::io::repeat;

    use chronicle::raw::check;
    use chronicle_trial::generate::at_limits;
    use chronicle_trial::pack::pack;

    use super::{bounded, largest_record, length};

    /// The largest record of all is read whole, and is accepted.
    #[test]
    fn the_largest_record() {
        let mut campaign = at_limits();
        campaign.strings = vec![vec![b'x'; 255]; 1_000];
        let record = pack(&campaign);
        assert_eq!((record.len(), check(&record)), (largest_record(), Ok(())));
        assert_eq!(bounded(&record[..]).expect("it is read"), record);
        assert_eq!(length(&record), "7776044 bytes");
    }

    /// What is longer has the number of the whole, by what is read of it.
    #[test]
    fn nothing_without_end_is_read() {
        let read = bounded(repeat(7)).expect("it is read");
        assert_eq!((read.len(), length(&read)), (7_776_045, "more than 7776044 bytes".to_string()));
        let mut campaign = at_limits();
        campaign.strings = vec![vec![b'x'; 255]; 1_000];
        let mut record = pack(&campaign);
        record.resize(record.len() + 500, 0);
        let read = bounded(&record[..]).expect("it is read");
        assert_eq!((read.len(), check(&read)), (largest_record() + 1, check(&record)));
    }
}
