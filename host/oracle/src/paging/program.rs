//! What the program prints.

use chronicle_trial::adversary::selections::{draw, selection, spoiled};
use chronicle_trial::generate::Random;
use chronicle_trial::model;
use chronicle_trial::pack::{pack, Campaign};
use chronicle_trial::program::{printed, remark, Folder};

use super::Paged;
use crate::rust::Rust;
use crate::seen::Seen;

/// The program in a folder of its own, and what is drawn for it.
#[derive(Debug)]
pub struct Printed {
    folder: Folder,
    random: Random,
}

impl Printed {
    /// With draws by this seed.
    pub fn new(seed: u64) -> Printed {
        Printed { folder: Folder::new(), random: Random::new(seed) }
    }

    /// Holds what is printed for a campaign against the page that the Rust and the model agree on: for
    /// a selection, and for bytes that are none.
    pub fn compare(&mut self, campaign: &Campaign, seen: &mut Seen) -> Result<(), String> {
        let (rust, record) = (Rust::of(campaign), pack(campaign));
        let paged = Paged { record: &record, rust: &rust };
        let tags = draw(&mut self.random, &model::chronicle(campaign).nations, &[]);
        self.selected(paged, &selection(&tags), seen)?;
        let spoiled = spoiled(&mut self.random, &tags);
        self.selected(paged, &spoiled, seen)
    }

    /// As [`Printed::compare`], for one selection.
    pub fn selected(
        &self,
        paged: Paged<'_>,
        selection: &[u8],
        seen: &mut Seen,
    ) -> Result<(), String> {
        let page = paged.agreed(selection)?;
        seen.add(if page.is_ok() { "program: page" } else { "program: refused" }, 1);
        let expected = printed(page);
        std::fs::write(self.folder.campaign(), paged.record).map_err(|error| error.to_string())?;
        let output = self.folder.run(selection);
        let said = output.stderr == remark(selection).as_bytes();
        if output.stdout == expected && said && output.status.success() {
            return Ok(());
        }
        let expected = String::from_utf8_lossy(&expected).into_owned();
        Err(format!("the program: {output:?} and not {expected:?}"))
    }
}
