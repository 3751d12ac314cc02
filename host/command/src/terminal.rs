//! What a terminal may see, and how wide it is.

use std::fmt::Write;
use std::io::IsTerminal;

/// As wide is what is no terminal.
const ELSEWHERE: usize = 80;

/// Narrower columns are not used.
const LEAST: usize = 40;

/// The columns of the terminal that standard output is, or 80.
pub fn width() -> usize {
    columns()
        .filter(|_| std::io::stdout().is_terminal())
        .map_or(ELSEWHERE, |found| found.max(LEAST))
}

/// The columns of the terminal behind standard output, as the system knows them.
#[cfg(target_os = "linux")]
fn columns() -> Option<usize> {
    use std::ffi::{c_int, c_ulong};

    extern "C" {
        fn ioctl(descriptor: c_int, request: c_ulong, ...) -> c_int;
    }
    const WINDOW_SIZE: c_ulong = 0x5413;
    // Rows, columns, and two numbers of pixels.
    let mut size = [0_u16; 4];
    // SAFETY: the request writes four 16-bit words to the place that is given, and keeps nothing.
    let answer = unsafe { ioctl(1, WINDOW_SIZE, size.as_mut_ptr()) };
    (answer == 0 && size[1] > 0).then_some(usize::from(size[1]))
}

#[cfg(not(target_os = "linux"))]
fn columns() -> Option<usize> {
    std::env::var("COLUMNS").ok()?.parse().ok()
}

/// The text in lines that are no longer than this, each behind the first indented by so many blanks; a word that
/// is longer stands alone. Blanks before the first word are kept.
pub fn wrapped(text: &str, width: usize, indent: usize) -> String {
    let words = text.trim_start_matches(' ');
    let mut out = " ".repeat(text.len() - words.len());
    let mut used = out.len();
    for word in words.split(' ') {
        let length = word.chars().count();
        let first = out.ends_with(' ') || out.is_empty();
        if !first && used + 1 + length > width {
            let _ = write!(out, "\n{:indent$}", "");
            used = indent;
        } else if !first {
            out.push(' ');
            used += 1;
        }
        out.push_str(word);
        used += length;
    }
    out
}

/// Whether a character is shown as itself: no control character, none that turns the direction of a line, and
/// none that cannot be seen.
pub fn is_plain(letter: char) -> bool {
    let hidden = matches!(letter,
        '\u{ad}' | '\u{61c}' | '\u{180e}' | '\u{200b}'..='\u{200f}' | '\u{2028}'..='\u{202e}'
        | '\u{2060}'..='\u{206f}' | '\u{feff}' | '\u{fff9}'..='\u{fffb}' | '\u{e0000}'..='\u{e007f}');
    !letter.is_control() && !hidden
}

/// Bytes of a name as a terminal may have them: what moves the cursor, turns the line or is no UTF-8 is written
/// as an escape, and so is the backslash.
pub fn shown(bytes: &[u8]) -> String {
    escaped(bytes, true)
}

/// A path likewise, with its backslashes as they are.
pub fn shown_path(path: &std::ffi::OsStr) -> String {
    escaped(path.as_encoded_bytes(), false)
}

fn escaped(bytes: &[u8], backslash: bool) -> String {
    let mut out = String::with_capacity(bytes.len());
    for chunk in bytes.utf8_chunks() {
        for letter in chunk.valid().chars() {
            match letter {
                '\\' if backslash => out.push_str("\\\\"),
                '\n' | '\r' | '\t' => out.extend(letter.escape_default()),
                _ if is_plain(letter) => out.push(letter),
                _ => out.extend(letter.escape_unicode()),
            }
        }
        out.push_str(&chunk.invalid().escape_ascii().to_string());
    }
    out
}

#[cfg(test)]
mod tests {
    use super::{shown, wrapped};

    #[test]
    fn nothing_moves_the_cursor_or_turns_the_line() {
        assert_eq!(shown("Zoë 明".as_bytes()), "Zoë 明");
        let name = "a\u{1b}[2J\u{202e}b\u{2066}c\u{7f}\u{9b}d\u{200f}\u{e0041}\n\\".as_bytes();
        let told = "a\\u{1b}[2J\\u{202e}b\\u{2066}c\\u{7f}\\u{9b}d\\u{200f}\\u{e0041}\\n\\\\";
        assert_eq!(shown(name), told);
        assert_eq!(shown(b"A\xff\xc3"), "A\\xff\\xc3");
    }

    #[test]
    fn lines_are_no_longer() {
        assert_eq!(wrapped("a bc def ghij", 8, 2), "a bc def\n  ghij");
        assert_eq!(wrapped("abcdefghij k", 4, 0), "abcdefghij\nk");
        assert_eq!(wrapped("  a bc", 4, 2), "  a\n  bc");
    }
}
