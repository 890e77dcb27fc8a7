//! Those who answer: the Rust in both copies, the model, and the proved library.

use calls::{Leaves, Refusal, Sender, Settings};
use entries::{Bend, Entries};

#[derive(Clone, Copy)]
enum Kind {
    Unmodified,
    Repaired,
    Entries(Entries),
}

#[derive(Clone, Copy)]
pub struct Party {
    pub name: &'static str,
    kind: Kind,
}

pub const UNMODIFIED: Party = Party { name: "unmodified", kind: Kind::Unmodified };

pub const REPAIRED: Party = Party { name: "repaired", kind: Kind::Repaired };

/// The model, with none of its rules bent.
pub fn model() -> Party {
    bent_model(0)
}

pub fn bent_model(rule: u32) -> Party {
    Party { name: "model", kind: Kind::Entries(entries::model(rule)) }
}

/// The proved library, where it was at hand when this was built.
pub fn proved(bend: Bend) -> Option<Party> {
    let name = "rattle";
    entries::proved(bend).map(|entries| Party { name, kind: Kind::Entries(entries) })
}

impl Party {
    /// Whether it refuses by itself what document 01 refuses by a call's arguments.
    pub fn refuses(&self) -> bool {
        matches!(self.kind, Kind::Entries(_))
    }

    pub fn sender(&self, settings: &Settings) -> Result<Box<dyn Sender>, Refusal> {
        Ok(match &self.kind {
            Kind::Unmodified => Box::new(phel_unmodified::judge::Judge::new(settings)),
            Kind::Repaired => Box::new(phel_repaired::judge::Judge::new(settings)),
            Kind::Entries(entries) => Box::new(entries.sender(settings)?),
        })
    }

    pub fn leaves(&self) -> Box<dyn Leaves> {
        match &self.kind {
            Kind::Unmodified => Box::new(phel_unmodified::judge::LeavesJudge::default()),
            Kind::Repaired => Box::new(phel_repaired::judge::LeavesJudge::default()),
            Kind::Entries(entries) => Box::new(entries.leaves()),
        }
    }
}
