//! The program `page`, run in a folder of its own.

use std::env;
use std::fs::{create_dir_all, remove_dir_all};
use std::io::Write;
use std::path::{Path, PathBuf};
use std::process::{id, Command, Output, Stdio};
use std::sync::atomic::{AtomicUsize, Ordering};

use chronicle::Refusal;

/// Folders made by this process.
static FOLDERS: AtomicUsize = AtomicUsize::new(0);

/// A folder to run the program in; it is removed in the end.
#[derive(Debug)]
pub struct Folder(PathBuf);

impl Folder {
    /// A new folder without any file.
    ///
    /// # Panics
    ///
    /// If there can be none.
    ///
    /// ```
    /// use chronicle_trial::program::Folder;
    ///
    /// assert!(!Folder::new().campaign().exists());
    /// ```
    #[allow(clippy::new_without_default)]
    pub fn new() -> Folder {
        let number = FOLDERS.fetch_add(1, Ordering::Relaxed);
        let path = env::temp_dir().join(format!("chronicle-page-{}-{number}", id()));
        create_dir_all(&path).expect("a folder for temporary files");
        Folder(path)
    }

    /// Where the program looks for its record.
    ///
    /// ```
    /// use chronicle_trial::program::Folder;
    ///
    /// assert!(Folder::new().campaign().ends_with("campaign.atl"));
    /// ```
    pub fn campaign(&self) -> PathBuf {
        self.0.join("campaign.atl")
    }

    /// The folder itself.
    ///
    /// ```
    /// use chronicle_trial::program::Folder;
    ///
    /// assert!(Folder::new().path().is_dir());
    /// ```
    pub fn path(&self) -> &Path {
        &self.0
    }

    /// The program, to be started in this folder: target/bin/page_main, or what CHRONICLE_PAGE names.
    ///
    /// ```
    /// use chronicle_trial::program::Folder;
    ///
    /// let folder = Folder::new();
    /// assert_eq!(folder.program().get_current_dir(), Some(folder.path()));
    /// ```
    pub fn program(&self) -> Command {
        let built = || Path::new(env!("CARGO_MANIFEST_DIR")).join("../../target/bin/page_main");
        let path = env::var_os("CHRONICLE_PAGE").map_or_else(built, PathBuf::from);
        let mut command = Command::new(path.canonicalize().unwrap_or(path));
        command.current_dir(&self.0).stdin(Stdio::piped());
        command.stdout(Stdio::piped()).stderr(Stdio::piped());
        command
    }

    /// Runs the program with a selection on its standard input.
    ///
    /// # Panics
    ///
    /// If the program is not there: `bash tools/build.sh` makes it.
    pub fn run(&self, selection: &[u8]) -> Output {
        let mut child = self.program().spawn().expect("the program page_main has been built");
        let mut input = child.stdin.take().expect("standard input is a pipe");
        // More than the program reads may be left in the pipe when it ends.
        let _ = input.write_all(selection);
        drop(input);
        child.wait_with_output().expect("the program ends")
    }
}

impl Drop for Folder {
    fn drop(&mut self) {
        let _ = remove_dir_all(&self.0);
    }
}

/// What the program prints for a page or for a refusal.
///
/// ```
/// use chronicle::Refusal;
/// use chronicle_trial::program::printed;
///
/// assert_eq!(printed(Err(Refusal::BadQuestion)), b"refused 12\n");
/// assert_eq!(printed(Ok(b"selected 0\n".to_vec())), b"selected 0\n");
/// ```
pub fn printed(page: Result<Vec<u8>, Refusal>) -> Vec<u8> {
    page.unwrap_or_else(|refusal| format!("refused {}\n", refusal.number()).into_bytes())
}

/// The most bytes of a selection that the program reads: one more than a page takes.
const MOST_READ: usize = 65_537;

/// What the program says on standard error of a selection: that it has a carriage return, if it has one.
///
/// ```
/// use chronicle_trial::program::remark;
///
/// assert_eq!(remark(b"GBR\nFRA\n"), "");
/// assert!(remark(b"GBR\r\n").starts_with("page: the selection has a carriage return"));
/// ```
pub fn remark(selection: &[u8]) -> &'static str {
    let read = &selection[..selection.len().min(MOST_READ)];
    match read.contains(&b'\r') {
        true => "page: the selection has a carriage return: a line feed alone ends each tag\n",
        false => "",
    }
}
