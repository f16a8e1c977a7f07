//! Points that the twelve cases leave out, as texts and the answers to them.

use super::cases::Case;
use crate::probe::{Call, Request};
use crate::text;

pub(super) fn case(name: &'static str, text: &str, call: Call, answer: &'static str) -> Case {
    // A text with a mistake is taken as an empty file, which is refused.
    let file = text::parse(text).unwrap_or_default();
    Case {
        name,
        request: Request { file, call },
        answer,
    }
}

pub(super) fn read(name: &'static str, text: &str, answer: &'static str) -> Case {
    case(name, text, Call::Read, answer)
}

/// Runs a text under kinds given as digits, with fuel and lent entries.
pub(super) fn run(
    name: &'static str,
    text: &str,
    (kinds, fuel, entries): (&str, u32, usize),
    answer: &'static str,
) -> Case {
    let call = Call::Run {
        marking: kinds.bytes().map(|digit| digit - b'0').collect(),
        fuel,
        memory: vec![99; entries],
    };
    case(name, text, call, answer)
}

/// Stores the result of an operator in a cell.
fn operator(symbol: &'static str, a: u32, b: u32, answer: &'static str) -> Case {
    let text = format!(
        "types\n t1 = ref int\nhomes\n h1 = t1 size 1\nexpressions\n e0 = home h1\n \
         e1 = literal {a}\n e2 = literal {b}\n e3 = e1 {symbol} e2\ncommands\n \
         c0 = store through e0 value e3"
    );
    run(symbol, &text, ("0", 100, 1), answer)
}

/// Counts to 2: a test enters five rows, a round of the body six.
const LOOP: &str = "
types
  t1 = ref int
homes
  h1 = t1 size 1
expressions
  e0 = home h1
  e1 = read through e0
  e2 = literal 2
  e3 = e1 < e2
  e4 = literal 1
  e5 = e1 + e4
commands
  c0 = store through e0 value e5
  c1 = while e3 do c0
";

/// Home 1 moved by -1 has address 0; moved on by 2, it is in its home again.
const WRAP: &str = "
types
  t1 = ref int
homes
  h1 = t1 size 2
expressions
  e0 = home h1
  e1 = literal 0xffffffff
  e2 = sum e0 plus e1
  e3 = literal 2
  e4 = sum e2 plus e3
  e5 = cast e2 to int
  e6 = literal 0
  e7 = e5 == e6
commands
  c0 = store through e4 value e7
";

/// A pointer out of its home is stored in a cell of another type.
const CONVERTED: &str = "
types
  t1 = ref int
  t2 = ref int
  t3 = ref t2
homes
  h1 = t1 size 3
  h2 = t3 size 1
expressions
  e0 = home h1
  e1 = literal 3
  e2 = sum e0 plus e1
  e3 = home h2
commands
  c0 = store through e3 value e2
";

/// A number as a pointer.
const FORGED: &str = "
types
  t1 = ref int
homes
expressions
  e0 = literal 5
  e1 = cast e0 to t1
commands
  c0 = store through e1 value e0
";

/// A pointer kept in a DYNAMIC home and read there as an int.
const REREAD: &str = "
types
  t1 = ref int
  t2 = ref t1
homes
  h1 = t2 size 2
expressions
  e0 = home h1
  e1 = cast e0 to t1
  e2 = read through e1
  e3 = literal 1
  e4 = sum e1 plus e3
commands
  c0 = store through e0 value e1
  c1 = store through e4 value e2
  c2 = c0 then c1
";

pub fn further() -> Vec<Case> {
    let runs = [
        run("loop", LOOP, ("0", 100, 1), "done 0 27 : 2"),
        run(
            "loop, out of fuel at a test",
            LOOP,
            ("0", 11, 1),
            "fuel 51 11 : 1",
        ),
        run(
            "loop, out of fuel in a value",
            LOOP,
            ("0", 10, 1),
            "fuel 32 10 : 0",
        ),
        run("wrap", WRAP, ("1", 100, 2), "done 0 12 : 0 1"),
        run(
            "converted",
            CONVERTED,
            ("100", 100, 4),
            "check-2 42 5 : 0 0 0 0",
        ),
        run(
            "converted, SAFE",
            CONVERTED,
            ("000", 100, 1),
            "refused 8 30 : 99",
        ),
        run(
            "converted, DYNAMIC",
            CONVERTED,
            ("222", 100, 4),
            "done 0 5 : 4294967296 4294967296 4294967296 8589934595",
        ),
        run("forged, SEQ", FORGED, ("1", 9, 0), "check-2 20 3 :"),
        run("forged, DYNAMIC", FORGED, ("2", 9, 0), "check-3 20 3 :"),
        run("forged, SAFE", FORGED, ("0", 9, 0), "refused 8 13 :"),
        run("forged, 7 before 8", FORGED, ("", 9, 0), "refused 7 0 :"),
        run(
            "reread",
            REREAD,
            ("22", 99, 3),
            "done 0 13 : 8589934592 4294967297 99",
        ),
    ];
    let operators = [
        operator("+", u32::MAX, 2, "done 0 5 : 1"),
        operator("-", 1, 2, "done 0 5 : 4294967295"),
        operator("*", 65_536, 65_537, "done 0 5 : 65536"),
        operator("/", 7, 2, "done 0 5 : 3"),
        operator("%", 7, 4, "done 0 5 : 3"),
        operator("==", 3, 3, "done 0 5 : 1"),
        operator("==", 3, 4, "done 0 5 : 0"),
        operator("<", u32::MAX, 1, "done 0 5 : 0"),
        operator("<", 1, u32::MAX, "done 0 5 : 1"),
        operator("&", 12, 10, "done 0 5 : 8"),
        operator(">>", 12, 2, "done 0 5 : 3"),
        operator(">>", u32::MAX, 31, "done 0 5 : 1"),
        operator(">>", 1, 32, "done 0 5 : 0"),
        operator(">>", 4, 33, "done 0 5 : 0"),
    ];
    let reads = [
        read("nothing", "", "refused 1 0"),
        read("half a count", "types\nbytes 00", "refused 1 2"),
        read("256 types, no row", "types 256", "refused 2 0"),
        read(
            "own target, row missing",
            "types 2\n t1 = ref t1",
            "refused 3 2",
        ),
        read(
            "no commands, spare byte",
            "types\nhomes\nexpressions\ncommands\nbytes 00",
            "refused 2 6",
        ),
        read(
            "home 0",
            "types\nhomes\nexpressions\n e0 = home h0\ncommands\n c0 = skip",
            "refused 3 6",
        ),
    ];
    let mut cases = Vec::new();
    cases.extend(runs);
    cases.extend(operators);
    cases.extend(reads);
    cases
}
