//! Start values: the refusals of the fifth section, their order, and the
//! memory that a run starts with.

use super::cases::Case;
use super::further::{case, read, run};
use crate::probe::Call;

/// Four sections, which end at 70. Home 2 has cells of references.
const FOUR: &str = "
types
  t1 = ref int
  t2 = ref t1
homes
  h1 = t1 size 3
  h2 = t2 size 2
  h3 = t1 size 1
expressions
  e0 = home h1
  e1 = literal 2
  e2 = sum e0 plus e1
  e3 = read through e2
  e4 = home h3
commands
  c0 = store through e4 value e3
  c1 = skip
  c2 = if e3 then c0 else c1
";

/// The four sections and what follows them.
fn with(fifth: &str) -> String {
    format!("{FOUR}{fifth}")
}

/// Start values, in the order of the file: home, cell, value.
fn values(rows: &[(u16, u16, u32)]) -> String {
    let mut text = String::from("values\n");
    for (index, (home, cell, value)) in rows.iter().enumerate() {
        text += &format!("  v{index} = home h{home} cell {cell} value {value}\n");
    }
    text
}

/// A file with these start values is read, or is refused.
fn read_rows(name: &'static str, rows: &[(u16, u16, u32)], answer: &'static str) -> Case {
    read(name, &with(&values(rows)), answer)
}

/// The four sections with a piece replaced, and these start values.
fn changed(from: &str, to: &str, rows: &[(u16, u16, u32)]) -> String {
    with(&values(rows)).replace(from, to)
}

const SUM: &str = "sum e0 plus e1";
const CONDITION: &str = "if e3";

/// A home of each kind, and of each a cell with a start value and one without.
const KINDS: &str = "
types
  t1 = ref int
  t2 = ref int
  t3 = ref int
homes
  h1 = t1 size 2
  h2 = t2 size 2
  h3 = t3 size 2
expressions
  e0 = home h1
commands
  c0 = store through e0 value e0
values
  v0 = home h1 cell 1 value 5
  v1 = home h2 cell 0 value 6
  v2 = home h3 cell 0 value 0x7
  v3 = home h3 cell 1 value 0xffffffff
";

/// Counts a start value down to 0 in its own cell, and up in the next home.
const COUNT_DOWN: &str = "
types
  t1 = ref int
homes
  h1 = t1 size 1
  h2 = t1 size 1
expressions
  e0 = home h1
  e1 = read through e0
  e2 = literal 1
  e3 = e1 - e2
  e4 = home h2
  e5 = read through e4
  e6 = e5 + e2
commands
  c0 = store through e4 value e6
  c1 = store through e0 value e3
  c2 = c0 then c1
  c3 = while e1 do c2
values
  v0 = home h1 cell 0 value 3
  v1 = home h2 cell 0 value 10
";

pub fn start_value_cases() -> Vec<Case> {
    let mut cases = sections();
    cases.extend(order());
    cases.extend(calls());
    cases.extend(runs());
    cases
}

/// The fifth section by itself: where it is, 1 to 4, 10 and 6.
fn sections() -> Vec<Case> {
    let whole = "values 2\n v0 = home h1 cell 0 value 1\n";
    vec![
        read("no fifth section", FOUR, "read 0 6 20 47 70"),
        read("no values", &with("values"), "read 0 6 20 47 70"),
        read_rows("values", &[(1, 2, 7), (3, 0, 8)], "read 0 6 20 47 70"),
        read("lone byte", &with("bytes 00"), "refused 1 70"),
        read("lone byte of 1", &with("bytes 01"), "refused 1 70"),
        read("257 values, no row", &with("values 257"), "refused 2 70"),
        read("65535 values", &with("values 0xffff"), "refused 2 70"),
        read("256 values, no row", &with("values 256"), "refused 1 72"),
        read(
            "a byte less than a row",
            &with("values 1\n bytes 01 00 00 00 07 00 00"),
            "refused 1 72",
        ),
        read("second row missing", &with(whole), "refused 1 80"),
        read_rows("home 0", &[(0, 0, 7)], "refused 3 72"),
        read_rows("last home", &[(3, 0, 7)], "read 0 6 20 47 70"),
        read_rows("home past the last", &[(4, 0, 7)], "refused 3 72"),
        read_rows("home far over", &[(u16::MAX, 0, 7)], "refused 3 72"),
        read_rows("cell at the size", &[(1, 3, 7)], "refused 3 72"),
        read_rows("cell far past", &[(3, u16::MAX, 7)], "refused 3 72"),
        read_rows("second row", &[(1, 0, 7), (3, 1, 7)], "refused 3 80"),
        read(
            "spare byte after no values",
            &with("values\n bytes 00"),
            "refused 4 72",
        ),
        read(
            "spare bytes",
            &with("values\n v0 = home h1 cell 0 value 7\n bytes 00 00 00 00 00 00 00 00"),
            "refused 4 80",
        ),
        read_rows("same cell", &[(1, 1, 7), (1, 1, 7)], "refused 10 80"),
        read_rows("lower cell", &[(1, 2, 7), (1, 1, 8)], "refused 10 80"),
        read_rows("lower home", &[(3, 0, 7), (1, 1, 8)], "refused 10 80"),
        read_rows(
            "above the first, not the second",
            &[(1, 0, 7), (1, 2, 8), (1, 1, 9)],
            "refused 10 88",
        ),
        read_rows(
            "two falls",
            &[(1, 1, 7), (1, 0, 8), (1, 0, 9)],
            "refused 10 80",
        ),
        read_rows("cells of references", &[(2, 1, 7)], "refused 6 72"),
        read_rows(
            "first of two cells of references",
            &[(1, 0, 7), (2, 0, 0), (2, 1, 0)],
            "refused 6 80",
        ),
    ]
}

/// Files that earn two refusals: which is given.
fn order() -> Vec<Case> {
    let five_homes = "types\n t1 = ref int\n t2 = ref t1\nhomes\n h1 = t2 size 1024\n \
         h2 = t1 size 1024\n h3 = t1 size 1024\n h4 = t1 size 1024\n h5 = t1 size 1\n\
         expressions\n e0 = literal 1\n e1 = read through e0\ncommands\n c0 = skip\n";
    let many_cells = |rows| format!("{five_homes}{}", values(rows));
    let fall = [(3, 0, 7), (2, 1, 8)];
    let reference = [(2, 1, 8)];
    vec![
        read(
            "3 before 1",
            &with("values 2\n v0 = home h0 cell 0 value 7"),
            "refused 3 72",
        ),
        read(
            "2 before 3",
            &with("values 300\n v0 = home h0 cell 0 value 7"),
            "refused 2 70",
        ),
        read_rows("3 before 10", &[(3, 0, 7), (1, 3, 7)], "refused 3 80"),
        read(
            "4 before 10",
            &with(&format!("{}bytes 00", values(&fall))),
            "refused 4 88",
        ),
        read(
            "4 before 5",
            &format!("{}bytes 00", many_cells(&[(2, 0, 7)])),
            "refused 4 59",
        ),
        read(
            "1 before 5",
            &format!("{five_homes}values 1\n"),
            "refused 1 51",
        ),
        read("5 before 10", &many_cells(&fall), "refused 5 24"),
        read("5 before 6", &many_cells(&[(1, 0, 7)]), "refused 5 24"),
        read_rows("10 before 6 of a value", &fall, "refused 10 80"),
        read_rows(
            "10 before 6 of an earlier value",
            &[(2, 0, 7), (3, 0, 8), (1, 0, 9)],
            "refused 10 88",
        ),
        read(
            "10 before 6 of an expression",
            &changed(SUM, "e0 + e1", &[(1, 0, 7), (1, 0, 8)]),
            "refused 10 80",
        ),
        read(
            "10 before 6 of a command",
            &changed(CONDITION, "if e0", &[(1, 0, 7), (1, 0, 8)]),
            "refused 10 80",
        ),
        read(
            "6 of an expression before a value's",
            &changed(SUM, "e0 + e1", &reference),
            "refused 6 32",
        ),
        read(
            "6 of a command before a value's",
            &changed(CONDITION, "if e0", &reference),
            "refused 6 63",
        ),
    ]
}

/// The other calls: these refusals come before 7, 8 and 9, and write nothing.
fn calls() -> Vec<Case> {
    let fall = with(&values(&[(1, 1, 7), (1, 0, 8)]));
    let reference = with(&values(&[(2, 0, 7)]));
    let fine = with(&values(&[(1, 0, 7)]));
    let infer = |lent| Call::Infer { lent };
    let check = |marking| Call::Check { marking };
    vec![
        case(
            "10 of an inference",
            &fall,
            infer(vec![9; 1]),
            "refused 10 80 : 9",
        ),
        case(
            "6 of an inference",
            &reference,
            infer(vec![9; 3]),
            "refused 6 72 : 9 9 9",
        ),
        case(
            "values ask for no kind",
            &fine,
            infer(vec![9; 3]),
            "marked : 1 0 9",
        ),
        case("10 before 7", &fall, check(vec![]), "refused 10 80"),
        case("6 before 7", &reference, check(vec![3, 3]), "refused 6 72"),
        case("6 before 8", &reference, check(vec![0, 0]), "refused 6 72"),
        case("8 after all", &fine, check(vec![0, 0]), "refused 8 32"),
        run("10 of a run", &fall, ("10", 9, 1), "refused 10 80 : 99"),
        run("6 of a run", &reference, ("10", 9, 1), "refused 6 72 : 99"),
        run(
            "8 of a run",
            &fine,
            ("00", 0, 6),
            "refused 8 32 : 99 99 99 99 99 99",
        ),
        run(
            "9 of a run",
            &fine,
            ("10", 0, 5),
            "refused 9 6 : 99 99 99 99 99",
        ),
    ]
}

/// The starting memory, and runs that ask for it.
fn runs() -> Vec<Case> {
    let disc = with(&values(&[(1, 1, 4), (1, 2, 7), (3, 0, 5)]));
    let none = with(&values(&[(1, 2, 0), (3, 0, 5)]));
    vec![
        run(
            "a home of each kind",
            KINDS,
            ("012", 0, 7),
            "fuel 31 0 : 0 5 6 0 4294967303 8589934591 99",
        ),
        run(
            "other kinds",
            KINDS,
            ("210", 0, 6),
            "fuel 31 0 : 4294967296 4294967301 6 0 7 4294967295",
        ),
        run(
            "all DYNAMIC",
            KINDS,
            ("222", 0, 6),
            "fuel 31 0 : 4294967296 4294967301 4294967302 4294967296 4294967303 8589934591",
        ),
        run(
            "all SAFE, a store of an address",
            KINDS,
            ("000", 9, 6),
            "done 0 3 : 1 5 6 0 7 4294967295",
        ),
        run(
            "a value that holds, SEQ",
            &disc,
            ("10", 99, 6),
            "done 0 11 : 0 4 7 4294967296 4294967296 7",
        ),
        run(
            "a value that holds, DYNAMIC and SAFE",
            &disc,
            ("20", 99, 6),
            "done 0 11 : 4294967296 4294967300 4294967303 4294967296 4294967296 4294967303",
        ),
        run(
            "a value of 0",
            &none,
            ("10", 99, 6),
            "done 0 6 : 0 0 0 4294967296 4294967296 5",
        ),
        run("count down", COUNT_DOWN, ("0", 999, 2), "done 0 51 : 0 13"),
        run(
            "count down, DYNAMIC",
            COUNT_DOWN,
            ("2", 999, 2),
            "done 0 51 : 4294967296 4294967309",
        ),
        run(
            "count down, out of fuel",
            COUNT_DOWN,
            ("0", 3, 2),
            "fuel 67 3 : 3 10",
        ),
    ]
}
