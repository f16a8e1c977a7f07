//! The program as a person calls it: what it prints, and its status.

use std::io::Write;
use std::path::PathBuf;
use std::process::{Command, Stdio};

use peer::text;

/// Stores 7 in the last of three cells.
const ROUTINE: &str = "\
types
  t1 = ref int
homes
  h1 = t1 size 3
expressions
  e0 = home h1
  e1 = literal 0x2
  e2 = sum e0 plus e1
  e3 = literal 7
commands
  c0 = store through e2 value e3
";

/// Start values for the first and the last of the cells.
const VALUES: &str = "\
values
  v0 = home h1 cell 0 value 5
  v1 = home h1 cell 2 value 0x9
";

/// The status, and all that is printed, of the program with these words.
fn peer(words: &[&str], input: &[u8]) -> (Option<i32>, String, String) {
    let mut child = Command::new(env!("CARGO_BIN_EXE_peer"))
        .args(words)
        .stdin(Stdio::piped())
        .stdout(Stdio::piped())
        .stderr(Stdio::piped())
        .spawn()
        .expect("the program starts");
    let mut stdin = child.stdin.take().expect("it has an input");
    // A program that does not read its input may have ended by now.
    let _ = stdin.write_all(input);
    drop(stdin);
    let output = child.wait_with_output().expect("it ends");
    (
        output.status.code(),
        String::from_utf8(output.stdout).expect("it prints text"),
        String::from_utf8(output.stderr).expect("its errors are text"),
    )
}

fn bytes(text: &str) -> Vec<u8> {
    text::parse(text).expect("the text is right")
}

fn routine() -> Vec<u8> {
    bytes(ROUTINE)
}

/// The routine with start values.
fn valued() -> Vec<u8> {
    bytes(&format!("{ROUTINE}{VALUES}"))
}

/// The routine with a piece of its text replaced.
fn changed(piece: &str, by: &str) -> Vec<u8> {
    bytes(&ROUTINE.replace(piece, by))
}

/// A file with these bytes, of this name.
fn saved(name: &str, bytes: &[u8]) -> String {
    let path = PathBuf::from(env!("CARGO_TARGET_TMPDIR")).join(name);
    std::fs::write(&path, bytes).expect("the file is written");
    path.to_str().expect("its name is text").to_string()
}

fn expect(words: &[&str], input: &[u8], status: i32, printed: &str) {
    let found = peer(words, input);
    let expected = (Some(status), printed.to_string(), String::new());
    assert_eq!(found, expected, "peer {words:?}");
}

#[test]
fn a_run_that_is_done() {
    let printed = "\
done 0 5
the body ended, after 5 units
home 1, t1 SEQ, cells of int
  cell 0 = 0
  cell 1 = 0
  cell 2 = 7
";
    expect(&["run", "-"], &routine(), 0, printed);
}

#[test]
fn a_run_under_a_given_marking() {
    let dynamic = saved("run-dynamic", &[2]);
    let printed = "\
done 0 5
the body ended, after 5 units
home 1, t1 DYNAMIC, cells of int
  cell 0 = pair (0, 0), null or 0
  cell 1 = pair (0, 0), null or 0
  cell 2 = pair (0, 7), the number 7
";
    expect(&["run", "-", &dynamic], &routine(), 0, printed);
}

#[test]
fn a_run_that_fails_a_check() {
    let printed = "\
check-2 34 4
check 2, bounds, stopped the row at place 34, after 4 units
  c0 = store through e2 value e3
  its pointer e2 was pair (1, 4294967295), 1 before the first cell of home 1
home 1, t1 SEQ, cells of int
  cell 0 = 0
  cell 1 = 0
  cell 2 = 0
";
    let far = changed("0x2", "0xffffffff");
    expect(&["run", "-"], &far, 0, printed);
}

#[test]
fn a_run_out_of_fuel() {
    let printed = "\
fuel 22 1
the fuel was used up, after 1 unit; the row at place 22 was next
  e2 = sum e0 plus e1
home 1, t1 SEQ, cells of int
  cell 0 = 0
  cell 1 = 0
  cell 2 = 0
";
    expect(&["run", "-", "--fuel", "1"], &routine(), 0, printed);
}

#[test]
fn a_run_that_is_refused() {
    let printed = "\
refused 6 at byte 22: an operand is a reference where an int is needed
  e2 = e0 + e1
";
    let plus = changed("sum e0 plus e1", "e0 + e1");
    for words in [["run", "-"], ["list", "-"]] {
        expect(&words, &plus, 1, printed);
    }
}

#[test]
fn a_run_with_start_values() {
    let printed = "\
fuel 34 0
the fuel was used up, after 0 units; the row at place 34 was next
  c0 = store through e2 value e3
home 1, t1 SEQ, cells of int
  cell 0 = 5
  cell 1 = 0
  cell 2 = 9
";
    expect(&["run", "-", "--fuel", "0"], &valued(), 0, printed);
    let printed = "\
done 0 5
the body ended, after 5 units
home 1, t1 DYNAMIC, cells of int
  cell 0 = pair (0, 5), the number 5
  cell 1 = pair (0, 0), null or 0
  cell 2 = pair (0, 7), the number 7
";
    let dynamic = saved("values-dynamic", &[2]);
    expect(&["run", "-", &dynamic], &valued(), 0, printed);
}

#[test]
fn start_values_that_are_refused() {
    let refused = |values: &str, printed: &str| {
        let file = bytes(&format!("{ROUTINE}{values}"));
        expect(&["run", "-"], &file, 1, printed);
    };
    refused(
        "values\n v0 = home h1 cell 1 value 5\n v1 = home h1 cell 0 value 6",
        "\
refused 10 at byte 51: this row is for a lower cell than the row before it
  v1 = home h1 cell 0 value 6
",
    );
    refused(
        "values\n v0 = home h1 cell 3 value 5",
        "\
refused 3 at byte 43: in this start value row, cell is 3, outside its range
  v0 = home h1 cell 3 value 5
",
    );
    refused(
        "values 300",
        "refused 2 at byte 41: a count of 300 values, over the limit of 256\n",
    );
    refused(
        "bytes 2a",
        "refused 1 at byte 41: the file ends before the count of values\n",
    );
    refused(
        "values\n bytes 2a",
        "refused 4 at byte 43: bytes follow the start values\n",
    );
    let references = ROUTINE
        .replace("homes", "  t2 = ref t1\nhomes")
        .replace("size 3", "size 3\n  h2 = t2 size 1");
    let file = bytes(&format!("{references}values\n v0 = home h2 cell 0 value 5"));
    let printed = "\
refused 6 at byte 49: the cells of this home are references, and a start value is an int
  v0 = home h2 cell 0 value 5
";
    expect(&["run", "-"], &file, 1, printed);
}

#[test]
fn start_values_listed() {
    let listed = |words: &[&str]| {
        let (status, printed, _) = peer(words, &valued());
        assert_eq!(status, Some(0));
        let values = printed.lines().skip_while(|line| *line != "values").skip(1);
        let rows = values.take_while(|line| *line != "checks");
        rows.map(str::to_string).collect::<Vec<_>>()
    };
    let expected = [
        "  v0 = home h1 cell 0 value 5         cell 0 of home 1 starts as the number 5: the home \
         is SEQ, so its int cells hold numbers",
        "  v1 = home h1 cell 2 value 9         cell 2 of home 1 starts as the number 9: the home \
         is SEQ, so its int cells hold numbers",
    ];
    assert_eq!(listed(&["list", "-"]), expected);
    let expected = [
        "  v0 = home h1 cell 0 value 5         cell 0 of home 1 starts as pair (0, 5): the home \
         is DYNAMIC, so all its cells hold pairs, a number as one of home 0",
        "  v1 = home h1 cell 2 value 9         cell 2 of home 1 starts as pair (0, 9): the home \
         is DYNAMIC, so all its cells hold pairs, a number as one of home 0",
    ];
    let dynamic = saved("list-dynamic", &[2]);
    assert_eq!(listed(&["list", "-", &dynamic]), expected);
}

#[test]
fn text_of_start_values() {
    let values = |file: &[u8]| {
        let (status, printed, _) = peer(&["text", "-"], file);
        assert_eq!(status, Some(0));
        let rows = printed.lines().skip_while(|line| !line.starts_with("v"));
        rows.map(str::to_string).collect::<Vec<_>>()
    };
    let expected = [
        "values                                       # 41",
        "  v0 = home h1 cell 0 value 5                # 43",
        "  v1 = home h1 cell 2 value 9                # 51",
    ];
    assert_eq!(values(&valued()), expected);
    // A row is cut short.
    let mut cut = valued();
    cut.truncate(54);
    let expected = [
        "values 2                                     # 41",
        "  v0 = home h1 cell 0 value 5                # 43",
        "bytes 01 00 02                               # 51",
    ];
    assert_eq!(values(&cut), expected);
    assert_eq!(bytes(&text::print(&cut)), cut);
    assert_eq!(bytes(&format!("{ROUTINE}values 0x12c"))[41..], [0x2c, 1]);
    for wrong in [
        "values\n v1 = home h1 cell 0 value 5",
        "values\n v0 = home h1 cell 0",
        "values\n v0 = home h1 cell 65536 value 5",
        "values\n v0 = home h1 cell 0 value 4294967296",
        "values\n v0 = row 1 2 3",
        "values\n v0 = home h1 cell 0 value 5\ncommands",
    ] {
        assert!(
            text::parse(&format!("{ROUTINE}{wrong}")).is_err(),
            "{wrong}"
        );
    }
}

#[test]
fn markings() {
    let file = saved("check-routine", &routine());
    let check = |marking: &[u8], status, printed| {
        expect(&["check", &file, "-"], marking, status, printed);
    };
    check(&[1], 0, "accepted\n");
    check(&[2], 0, "accepted\n");
    let safe = "\
refused 8 at byte 22: e2 is a pointer sum on a SAFE pointer
  e2 = sum e0 plus e1
";
    check(&[0], 1, safe);
    check(
        &[],
        1,
        "refused 7 at index 0: a marking of 0 bytes for 1 type\n",
    );
    check(&[3], 1, "refused 7 at index 0: marking byte 3 is no kind\n");
}

/// What the listing says of the types, without their rows.
fn reasons(text: &str) -> Vec<String> {
    let (status, printed, _) = peer(&["list", "-"], &bytes(text));
    assert_eq!(status, Some(0));
    let types = printed.lines().skip(1).take_while(|line| *line != "homes");
    types
        .map(|line| line.rsplit("  ").next().unwrap_or("").to_string())
        .collect()
}

#[test]
fn reasons_of_kinds() {
    let sum = "t1 is SEQ: as SAFE, e2 would be a pointer sum on a SAFE pointer (place 22)";
    assert_eq!(reasons(ROUTINE), [sum]);
    let text = "\
types
  t1 = ref int
  t2 = ref t1
  t3 = ref int
homes
  h1 = t2 size 1
expressions
  e0 = home h1
  e1 = cast e0 to t3
commands
  c0 = skip
";
    let expected = [
        "t1 is DYNAMIC: as SEQ, t2 would be a DYNAMIC type whose target, SEQ t1, is not DYNAMIC \
         (place 4)",
        "t2 is DYNAMIC: as SEQ, e1 would be a cast from SEQ t2 to DYNAMIC t3 (place 21)",
        "t3 is DYNAMIC: as SEQ, e1 would be a cast from DYNAMIC t2 to SEQ t3 (place 21)",
        "with SEQ for every DYNAMIC, e1 would be a cast from SEQ t2 to SEQ t3, whose targets, \
         SEQ t1 and int, are not equal (place 21)",
    ];
    assert_eq!(reasons(text), expected);
}

#[test]
fn text_from_standard_input() {
    let file = routine();
    let (status, printed, _) = peer(&["text", "-"], &file);
    assert_eq!(status, Some(0));
    assert_eq!(text::parse(&printed), Ok(file));
}

#[test]
fn help_for_every_subcommand() {
    let (status, overview, _) = peer(&["--help"], b"");
    assert_eq!(status, Some(0));
    let names = overview.lines().filter_map(|line| {
        let (start, call) = line.split_once("peer ")?;
        (start.trim() == "usage:" || start.trim().is_empty())
            .then(|| call.split(' ').next().unwrap_or(""))
    });
    let mut found = 0;
    for name in names {
        let (status, printed, _) = peer(&[name, "--help"], b"");
        assert_eq!(status, Some(0), "peer {name} --help");
        let usage = format!("usage: peer {name}");
        assert!(printed.starts_with(&usage), "{printed}");
        found += 1;
    }
    assert_eq!(found, 11);
}

#[test]
fn wrong_calls() {
    for words in [
        &["check", "a-file"][..],
        &["run", "-", "-"],
        &["run", "-", "--fuel", "4294967296"],
        &["list", "-", "--fuel", "1"],
        &["nothing"],
        &["text", "no-such-file"],
    ] {
        let (status, printed, errors) = peer(words, b"");
        assert_eq!(status, Some(2), "peer {words:?}");
        assert!(printed.is_empty() && !errors.is_empty(), "peer {words:?}");
    }
}
