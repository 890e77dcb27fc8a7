//! Whoever has the entries of include/phelgomrit.h, the proved library and the
//! model of document 01, as the harness asks for them.

#![allow(unexpected_cfgs)]

mod bend;
mod bent;
mod damage;
mod flat;
mod kept;
mod leaves;
mod sender;
mod table;
mod timers;

use calls::{Refusal, Settings};

pub use bend::{bend_model, rules, Bend, Rule, BENDS};
pub use damage::damaged;
pub use leaves::EntryLeaves;
pub use sender::EntrySender;
pub use table::{library, Table};

/// Who has the entries, and what is made wrong on purpose.
#[derive(Clone, Copy)]
pub struct Entries {
    table: &'static Table,
    /// Of the model: a bent rule, 0 for none.
    rule: Option<u32>,
    /// A bent answer.
    bend: Bend,
}

pub fn model(rule: u32) -> Entries {
    Entries { table: &table::MODEL, rule: Some(rule), bend: Bend::None }
}

/// The proved library, where it was at hand when this was built.
pub fn proved(bend: Bend) -> Option<Entries> {
    let rule = None;
    library().map(|table| Entries { table, rule, bend })
}

impl Entries {
    /// The model has one bent rule at a time, that of whoever was made last: two
    /// scripts with different bends are never played at once.
    fn bend_rule(&self) {
        if let Some(rule) = self.rule {
            bend_model(rule);
        }
    }

    pub fn sender(&self, settings: &Settings) -> Result<EntrySender, Refusal> {
        self.bend_rule();
        EntrySender::new(self.table, settings, self.bend)
    }

    pub fn leaves(&self) -> EntryLeaves {
        self.bend_rule();
        EntryLeaves::new(self.table, self.bend)
    }
}
