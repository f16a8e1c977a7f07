//! Where homes lie, and what their cells hold at the start.

use crate::kind::{Kind, Marking};
use crate::routine::Routine;
use crate::rows::{Home, StartValue};
use crate::value::Value;

/// Start and size of every home, the null home first.
#[derive(Clone, Debug)]
pub struct Layout {
    spans: Vec<Span>,
}

#[derive(Clone, Copy, Debug)]
struct Span {
    start: u32,
    size: u32,
}

impl Layout {
    pub fn new(routine: &Routine) -> Layout {
        let mut spans = vec![Span { start: 0, size: 1 }];
        let mut start = 1;
        for (_, row) in routine.homes() {
            let size = u32::from(row.size);
            spans.push(Span { start, size });
            start += size;
        }
        Layout { spans }
    }

    fn span(&self, home: Home) -> Span {
        self.spans[usize::from(home.0)]
    }

    /// Is there a home of this number, the null home counted?
    pub fn has(&self, home: Home) -> bool {
        usize::from(home.0) < self.spans.len()
    }

    pub fn start(&self, home: Home) -> u32 {
        self.span(home).start
    }

    pub fn size(&self, home: Home) -> u32 {
        self.span(home).size
    }

    pub fn address(&self, home: Home, offset: u32) -> u32 {
        self.span(home).start.wrapping_add(offset)
    }

    /// The home that an address lies in, the null home not counted.
    pub fn home_at(&self, address: u32) -> Option<Home> {
        let after = self.spans.partition_point(|span| span.start <= address);
        let home = after.checked_sub(1).filter(|&home| home > 0)?;
        let Span { start, size } = self.spans[home];
        (address - start < size).then_some(Home(home as u16))
    }
}

/// The index of the cell at an address that is not 0: homes follow one another
/// from address 1, so cells are in address order.
pub fn cell_index(address: u32) -> usize {
    address as usize - 1
}

/// Writes the starting memory over the cells.
pub fn write_start(routine: &Routine, marking: &Marking, layout: &Layout, cells: &mut [u64]) {
    for (entry, value) in cells.iter_mut().zip(unset_cells(routine, marking)) {
        *entry = value.to_entry();
    }
    for (_, row) in routine.start_values() {
        let address = layout.address(row.home, u32::from(row.cell));
        cells[cell_index(address)] = start_value(routine, marking, row).to_entry();
    }
}

/// What the cell of a start value holds when a run begins.
pub fn start_value(routine: &Routine, marking: &Marking, row: StartValue) -> Value {
    match marking.kind(routine.home(row.home).of) {
        Some(Kind::Dynamic) => Value::Pair(Home::NULL, row.value),
        _ => Value::Number(row.value),
    }
}

/// What all cells hold when a run begins, if no start value is given for them,
/// in address order.
fn unset_cells<'a>(routine: &'a Routine, marking: &'a Marking) -> impl Iterator<Item = Value> + 'a {
    routine.homes().flat_map(move |(_, row)| {
        let value = match (marking.kind(row.of), marking.kind(routine.element(row))) {
            (Some(Kind::Dynamic), _) => Value::NULL_PAIR,
            (_, None | Some(Kind::Safe)) => Value::Number(0),
            (_, Some(Kind::Seq | Kind::Dynamic)) => Value::NULL_PAIR,
        };
        std::iter::repeat_n(value, usize::from(row.size))
    })
}
