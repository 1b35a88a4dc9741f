//! The parts of the original engine that the oracle has; see README.md for the edits.

mod bug;
mod memory;
pub mod rarity_simulation;
mod system;

pub use self::{bug::*, memory::*};

use riscu::Program;

pub trait BugFinder<Info, Error>
where
    Info: BugInfo,
{
    fn search_for_bugs(&mut self, program: &Program) -> Result<Option<Bug<Info>>, Error>;
}
