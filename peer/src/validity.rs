//! Which memories are valid: what an acceptable marking promises of a run.

use crate::kind::{equal, Kind, Marking};
use crate::memory::Layout;
use crate::routine::Routine;
use crate::rows::{Home, Type};
use crate::run::Watch;
use crate::value::Value;

/// Says which values a cell may hold. It knows nothing of how a run came to
/// store them.
pub struct Validity<'a> {
    routine: &'a Routine,
    marking: &'a Marking,
    layout: Layout,
}

impl<'a> Validity<'a> {
    pub fn new(routine: &'a Routine, marking: &'a Marking) -> Validity<'a> {
        Validity {
            routine,
            marking,
            layout: Layout::new(routine),
        }
    }

    fn home_kind(&self, home: Home) -> Option<Kind> {
        self.marking.kind(self.routine.home(home).of)
    }

    fn dynamic_home(&self, home: Home) -> bool {
        self.home_kind(home) == Some(Kind::Dynamic)
    }

    /// A SAFE or SEQ home whose cells are of the type that `pointer` refers to.
    fn typed_home(&self, pointer: Type, home: Home) -> bool {
        let element = self.routine.element(self.routine.home(home));
        !self.dynamic_home(home)
            && self
                .routine
                .target(pointer)
                .is_some_and(|target| equal(self.routine, self.marking, target, element))
    }

    /// Is this value valid in a cell of this home?
    pub fn value(&self, home: Home, value: Value) -> bool {
        let cell = self.routine.element(self.routine.home(home));
        if let Value::Pair(to, _) = value {
            if !self.layout.has(to) {
                return false;
            }
        }
        let null_or_dynamic = |value| match value {
            Value::Pair(to, _) => to == Home::NULL || self.dynamic_home(to),
            Value::Number(_) => false,
        };
        if self.dynamic_home(home) {
            return null_or_dynamic(value);
        }
        match (self.marking.kind(cell), value) {
            (None, Value::Number(_)) => true,
            (Some(Kind::Safe), Value::Number(address)) => {
                address == 0
                    || self
                        .layout
                        .home_at(address)
                        .is_some_and(|to| self.typed_home(cell, to))
            }
            (Some(Kind::Seq), Value::Pair(to, _)) => to == Home::NULL || self.typed_home(cell, to),
            (Some(Kind::Dynamic), value) => null_or_dynamic(value),
            _ => false,
        }
    }

    /// Is the entry of the cell at this index valid?
    pub fn cell(&self, index: usize, entry: u64) -> bool {
        let home = u32::try_from(index + 1)
            .ok()
            .and_then(|address| self.layout.home_at(address));
        match (home, Value::from_entry(entry)) {
            (Some(home), Some(value)) => self.value(home, value),
            _ => false,
        }
    }

    /// Are all entries of the routine's cells valid?
    pub fn memory(&self, entries: &[u64]) -> bool {
        let cells = self.routine.cells();
        entries.len() >= cells
            && entries[..cells]
                .iter()
                .enumerate()
                .all(|(index, &entry)| self.cell(index, entry))
    }
}

/// Holds the starting memory, and every cell that is stored to, against the
/// rules. A store changes no other cell, so all of them stay valid.
pub struct ValidityWatch<'a> {
    validity: Validity<'a>,
    trouble: Option<String>,
}

impl<'a> ValidityWatch<'a> {
    pub fn new(routine: &'a Routine, marking: &'a Marking) -> ValidityWatch<'a> {
        ValidityWatch {
            validity: Validity::new(routine, marking),
            trouble: None,
        }
    }

    /// What the first cell that was not valid held.
    pub fn trouble(&self) -> Option<&str> {
        self.trouble.as_deref()
    }
}

impl Watch for ValidityWatch<'_> {
    fn started(&mut self, cells: &[u64]) {
        if !self.validity.memory(cells) {
            self.trouble = Some("the starting memory is not valid".to_string());
        }
    }

    fn stored(&mut self, cells: &[u64], index: usize) {
        if self.trouble.is_none() && !self.validity.cell(index, cells[index]) {
            self.trouble = Some(format!("entry {} stored in cell {index}", cells[index]));
        }
    }
}
