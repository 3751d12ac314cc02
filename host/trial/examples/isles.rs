//! Writes the record of `sample::isles` to standard output: samples/isles.atl is made by this.

use std::io::Write;

use chronicle_trial::pack::pack;
use chronicle_trial::sample::isles;

fn main() -> std::io::Result<()> {
    std::io::stdout().write_all(&pack(&isles()))
}
