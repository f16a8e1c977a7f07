//! The twelve cases, each as requests and the lines that answer them.

use crate::builder::Builder;
use crate::kind::Kind::{self, Dynamic, Safe, Seq};
use crate::probe::{Call, Request};
use crate::rows::{Expr, Home, Operator, Type};

pub struct Case {
    /// The case's number, and what part of it this is.
    pub name: &'static str,
    pub request: Request,
    pub answer: &'static str,
}

/// An odd content for buffers, to see what is written.
const ODD: u64 = 99;

fn bytes(kinds: &[Kind]) -> Vec<u8> {
    kinds.iter().map(|kind| kind.byte()).collect()
}

/// Asks for the least marking, with one entry to spare.
fn infer(name: &'static str, file: &[u8], types: usize, answer: &'static str) -> Case {
    let call = Call::Infer {
        lent: vec![ODD as u8; types + 1],
    };
    Case::new(name, file, call, answer)
}

fn check(name: &'static str, file: &[u8], kinds: &[Kind], answer: &'static str) -> Case {
    let call = Call::Check {
        marking: bytes(kinds),
    };
    Case::new(name, file, call, answer)
}

/// Asks for a run over this many entries.
fn run(
    name: &'static str,
    file: &[u8],
    kinds: &[Kind],
    (fuel, entries): (u32, usize),
    answer: &'static str,
) -> Case {
    let call = Call::Run {
        marking: bytes(kinds),
        fuel,
        memory: vec![ODD; entries],
    };
    Case::new(name, file, call, answer)
}

impl Case {
    fn new(name: &'static str, file: &[u8], call: Call, answer: &'static str) -> Case {
        let file = file.to_vec();
        Case {
            name,
            request: Request { file, call },
            answer,
        }
    }
}

const T1: Type = Type(1);
const FUEL: u32 = 1_000_000;

/// T1 = ref int, and home 1 of type 1 and size 3.
fn base() -> (Builder, Home) {
    let mut b = Builder::new();
    let t1 = b.reference(Type::INT);
    let home = b.home(t1, 3);
    (b, home)
}

fn store_seven() -> Vec<u8> {
    let (mut b, home) = base();
    let pointer = b.at(home);
    let seven = b.literal(7);
    b.store(pointer, seven);
    b.file()
}

fn store_seven_at(offset: u32) -> Vec<u8> {
    let (mut b, home) = base();
    let pointer = b.at(home);
    let offset = b.literal(offset);
    let moved = b.sum(pointer, offset);
    let seven = b.literal(7);
    b.store(moved, seven);
    b.file()
}

/// A body that evaluates an int and no more.
fn evaluate(b: &mut Builder, int: Expr) {
    let skip = b.skip();
    b.choose(int, skip, skip);
}

fn cast_then_sum() -> Vec<u8> {
    let (mut b, home) = base();
    let t2 = b.reference(Type::INT);
    let pointer = b.at(home);
    let cast = b.cast(pointer, t2);
    let one = b.literal(1);
    b.sum(cast, one);
    b.skip();
    b.file()
}

fn sum_then_cast() -> Vec<u8> {
    let (mut b, home) = base();
    let t2 = b.reference(Type::INT);
    let pointer = b.at(home);
    let one = b.literal(1);
    let moved = b.sum(pointer, one);
    b.cast(moved, t2);
    b.skip();
    b.file()
}

fn unequal_targets() -> Vec<u8> {
    let mut b = Builder::new();
    let t1 = b.reference(Type::INT);
    let t2 = b.reference(t1);
    let t3 = b.reference(Type::INT);
    let home = b.home(t2, 1);
    let pointer = b.at(home);
    b.cast(pointer, t3);
    b.skip();
    b.file()
}

fn literal_read(n: u32) -> Vec<u8> {
    let (mut b, _) = base();
    let number = b.literal(n);
    let pointer = b.cast(number, T1);
    let value = b.read(pointer);
    evaluate(&mut b, value);
    b.file()
}

fn null_read() -> Vec<u8> {
    let (mut b, _) = base();
    let pointer = b.null(T1);
    let value = b.read(pointer);
    evaluate(&mut b, value);
    b.file()
}

/// Home 1 to int, to T2, and read.
fn there_and_back() -> Vec<u8> {
    let (mut b, home) = base();
    let t2 = b.reference(Type::INT);
    let pointer = b.at(home);
    let number = b.cast(pointer, Type::INT);
    let forged = b.cast(number, t2);
    let value = b.read(forged);
    evaluate(&mut b, value);
    b.file()
}

/// The pointer of the case above, kept in a cell of a home of ref T2.
fn there_and_kept() -> Vec<u8> {
    let (mut b, home) = base();
    let t2 = b.reference(Type::INT);
    let t3 = b.reference(t2);
    let kept = b.home(t3, 1);
    let pointer = b.at(home);
    let number = b.cast(pointer, Type::INT);
    let forged = b.cast(number, t2);
    let kept = b.at(kept);
    b.store(kept, forged);
    b.file()
}

fn reference_operand() -> Vec<u8> {
    let (mut b, home) = base();
    let pointer = b.at(home);
    b.operation(Operator::Add, pointer, pointer);
    b.skip();
    b.file()
}

fn division(operator: Operator) -> Vec<u8> {
    let (mut b, _) = base();
    let five = b.literal(5);
    let zero = b.literal(0);
    let quotient = b.operation(operator, five, zero);
    evaluate(&mut b, quotient);
    b.file()
}

pub fn cases() -> Vec<Case> {
    let one = store_seven();
    let two = store_seven_at(2);
    let three = store_seven_at(3);
    let four = cast_then_sum();
    let five = sum_then_cast();
    let six = unequal_targets();
    let seven = literal_read(5);
    let seven_null = literal_read(0);
    let eight = null_read();
    let nine = there_and_back();
    let nine_kept = there_and_kept();
    let eleven = reference_operand();
    let twelve = division(Operator::Divide);
    let remainder = division(Operator::Remainder);
    let all_dynamic = [Dynamic; 3];
    let full = |entries| (FUEL, entries);

    vec![
        Case::new("1 read", &one, Call::Read, "read 0 4 10 22 31"),
        infer("1 least", &one, 1, "marked : 0 99"),
        run("1 run", &one, &[Safe], full(4), "done 0 3 : 7 0 0 99"),
        run("1 fuel 2", &one, &[Safe], (2, 3), "fuel 17 2 : 0 0 0"),
        run("1 fuel 0", &one, &[Safe], (0, 3), "fuel 24 0 : 0 0 0"),
        run("1 short", &one, &[Safe], full(2), "refused 9 3 : 99 99"),
        infer("2 least", &two, 1, "marked : 1 99"),
        run("2 run", &two, &[Seq], full(3), "done 0 5 : 0 0 7"),
        check("2 marked SAFE", &two, &[Safe], "refused 8 22"),
        infer("3 least", &three, 1, "marked : 1 99"),
        run("3 run", &three, &[Seq], full(3), "check-2 34 4 : 0 0 0"),
        infer("4 least", &four, 2, "marked : 1 1 99"),
        check("4 SEQ, SEQ", &four, &[Seq, Seq], "accepted"),
        check("4 SAFE, SEQ", &four, &[Safe, Seq], "refused 8 19"),
        infer("5 least", &five, 2, "marked : 1 0 99"),
        check("5 SEQ, SAFE", &five, &[Seq, Safe], "accepted"),
        infer("6 least", &six, 3, "marked : 2 2 2 99"),
        check("6 all DYNAMIC", &six, &all_dynamic, "accepted"),
        check("6 T1 SAFE", &six, &[Safe, Dynamic, Dynamic], "refused 8 4"),
        infer("7 least", &seven, 1, "marked : 1 99"),
        run(
            "7 literal 5",
            &seven,
            &[Seq],
            full(3),
            "check-2 22 4 : 0 0 0",
        ),
        infer("7 literal 0, least", &seven_null, 1, "marked : 1 99"),
        run(
            "7 literal 0",
            &seven_null,
            &[Seq],
            full(3),
            "check-1 22 4 : 0 0 0",
        ),
        infer("8 least", &eight, 1, "marked : 0 99"),
        run("8 run", &eight, &[Safe], full(3), "check-1 17 3 : 0 0 0"),
        infer("9 least", &nine, 2, "marked : 0 1 99"),
        run(
            "9 run",
            &nine,
            &[Safe, Seq],
            full(3),
            "check-2 29 5 : 0 0 0",
        ),
        infer("9 kept, least", &nine_kept, 3, "marked : 0 1 0 99"),
        run(
            "9 kept",
            &nine_kept,
            &[Safe, Seq, Safe],
            full(4),
            "done 0 5 : 0 0 0 4294967297",
        ),
        check("10 marked", &one, &[Dynamic], "accepted"),
        run(
            "10 run",
            &one,
            &[Dynamic],
            full(3),
            "done 0 3 : 4294967303 4294967296 4294967296",
        ),
        Case::new("11 read", &eleven, Call::Read, "refused 6 17"),
        infer("11 least", &eleven, 1, "refused 6 17 : 99 99"),
        infer("12 least", &twelve, 1, "marked : 0 99"),
        run("12 run", &twelve, &[Safe], full(3), "check-4 22 4 : 0 0 0"),
        run(
            "12 remainder",
            &remainder,
            &[Safe],
            full(3),
            "check-4 22 4 : 0 0 0",
        ),
    ]
}

/// The bytes of case 1 as the rules print them, and what `kinds` prints.
pub const PRINTED_CASE: ([u8; 31], &str) = (
    [
        0x01, 0x00, 0x00, 0x00, 0x01, 0x00, 0x01, 0x00, 0x03, 0x00, 0x02, 0x00, 0x01, 0x01, 0x00,
        0x00, 0x00, 0x00, 0x07, 0x00, 0x00, 0x00, 0x01, 0x00, 0x02, 0x00, 0x00, 0x01, 0x00, 0x00,
        0x00,
    ],
    "1 SAFE\ndone 0 3\n",
);
