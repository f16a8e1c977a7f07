//! Times the library and the peer on the same files, in turn, and prints the
//! least time of each and their ratio. Lent buffers are not cleared between
//! calls; a run clears its own cells.

mod ours;

use std::hint::black_box;
use std::time::Instant;

use peer::builder::Builder;
use peer::rows::Type;
use peer::samples::{self, Sample};

const ROUNDS: usize = 7;

/// Microseconds of one call: the least over rounds of as many calls as take
/// some milliseconds.
struct Timer {
    calls: u32,
}

impl Timer {
    fn for_calls_like(call: &mut dyn FnMut()) -> Timer {
        let mut calls = 1;
        loop {
            let start = Instant::now();
            for _ in 0..calls {
                call();
            }
            if start.elapsed().as_micros() > 4000 || calls > 1 << 20 {
                return Timer { calls };
            }
            calls *= 2;
        }
    }

    fn round(&self, call: &mut dyn FnMut()) -> f64 {
        let start = Instant::now();
        for _ in 0..self.calls {
            call();
        }
        start.elapsed().as_secs_f64() * 1e6 / f64::from(self.calls)
    }
}

/// Both calls in turn, and a line with their least times.
fn beside(name: &str, mut ours: impl FnMut(), mut peer: impl FnMut()) -> f64 {
    let timer_ours = Timer::for_calls_like(&mut ours);
    let timer_peer = Timer::for_calls_like(&mut peer);
    let (mut a, mut b) = (f64::MAX, f64::MAX);
    for _ in 0..ROUNDS {
        a = a.min(timer_ours.round(&mut ours));
        b = b.min(timer_peer.round(&mut peer));
    }
    println!("| {name} | {a:.2} | {b:.2} | {:.2} |", a / b);
    a
}

fn heading(title: &str) {
    println!("\n{title}\n\n| file | ours, µs | peer, µs | ours / peer |\n|---|---|---|---|");
}

fn read(sample: &Sample) {
    let file = &sample.file;
    beside(
        &sample.name,
        || {
            black_box(ours::read(black_box(file)));
        },
        || {
            let _ = black_box(peer::read(black_box(file)));
        },
    );
}

fn check(sample: &Sample) {
    let (file, marking) = (&sample.file, &sample.marking);
    beside(
        &sample.name,
        || {
            black_box(ours::check(black_box(file), marking));
        },
        || {
            let _ = black_box(peer::check_file(black_box(file), marking));
        },
    );
}

fn infer(name: &str, file: &[u8]) -> f64 {
    let (mut a, mut b) = ([0; 255], [0; 255]);
    let ours = beside(
        name,
        || {
            black_box(ours::infer(black_box(file), &mut a));
        },
        || {
            let _ = black_box(peer::infer_file(black_box(file), &mut b));
        },
    );
    assert_eq!(a, b, "the markings of {name}");
    ours
}

/// Whole runs from bytes, of one file or of several in turn.
fn run(name: &str, samples: &[Sample]) {
    let (mut a, mut b) = (vec![0; 4096], vec![0; 4096]);
    beside(
        name,
        || {
            for s in samples {
                black_box(ours::run(black_box(&s.file), &s.marking, s.fuel, &mut a));
            }
        },
        || {
            for s in samples {
                let _ = black_box(peer::run_file(
                    black_box(&s.file),
                    &s.marking,
                    s.fuel,
                    &mut b,
                ));
            }
        },
    );
    assert_eq!(a, b, "the cells of {name}");
}

/// A chain of n types, and 8n casts, each between a type and the one below it.
fn growing(n: u16) -> Vec<u8> {
    let mut b = Builder::new();
    for t in 0..n {
        b.reference(Type(t));
    }
    for t in 2..=n {
        let pointer = b.null(Type(t));
        for _ in 0..7 {
            if b.file().len() < 12000 {
                b.cast(pointer, Type(t - 1));
            }
        }
    }
    b.skip();
    b.file()
}

/// A chain of 4n casts over n types, made SEQ by its last row: each pass over
/// the conversions takes SEQ back by one.
fn rising(n: u16) -> Vec<u8> {
    let mut b = Builder::new();
    for _ in 0..n {
        b.reference(Type::INT);
    }
    let zero = b.literal(0);
    let mut pointer = b.null(Type(1));
    for cast in 0..4 * n {
        pointer = b.cast(pointer, Type(1 + cast / 4));
    }
    b.sum(pointer, zero);
    b.skip();
    b.file()
}

/// Two chains of 127 types, all SAFE, and 2,045 conversions between their
/// tops: each compares the chains down to int.
fn deepest_equal() -> Sample {
    let mut b = Builder::new();
    for t in 0..127 {
        b.reference(Type(t));
    }
    b.reference(Type::INT);
    for t in 128..254 {
        b.reference(Type(t));
    }
    let above = b.reference(Type(127));
    let (one, other) = (b.null(Type(127)), b.null(Type(254)));
    let place = b.null(above);
    for _ in 0..1021 {
        b.cast(one, Type(254));
    }
    for _ in 0..1024 {
        b.store(place, other);
    }
    Sample {
        name: "deepest-equal".into(),
        file: b.file(),
        marking: vec![0; 255],
        fuel: 0,
    }
}

fn main() {
    let all = samples::all();
    let named = |name: &str| {
        all.iter()
            .find(|s| s.name == name)
            .expect("a sample")
            .clone()
    };
    let trays: Vec<Sample> = all
        .iter()
        .filter(|s| s.name.starts_with("tray-"))
        .cloned()
        .collect();
    let files = ["longest", "start-values", "counting-loop", "sort", "tray-1"].map(named);
    let worst = [
        "longest",
        "rising-seq",
        "falling-dynamic",
        "deep-pairs",
        "ladder",
    ]
    .map(named);

    heading("Reading");
    files.iter().for_each(read);

    heading("Checking, under the least marking");
    files.iter().chain(&worst[1..]).for_each(check);
    check(&deepest_equal());

    heading("Inference");
    let most = files
        .iter()
        .chain(&worst[1..])
        .map(|s| infer(&s.name, &s.file))
        .fold(0.0, f64::max);
    println!("\nThe slowest inference took {:.2} ms.", most / 1000.0);

    heading("Inference, a chain of n types with casts between neighbours");
    for n in [16, 32, 64, 128] {
        infer(&format!("n = {n}"), &growing(n));
    }

    heading("Inference, 4n casts over n types, raised in the worst order");
    for n in [32, 64, 128, 250] {
        infer(&format!("n = {n}"), &rising(n));
    }

    heading("Running, whole calls from bytes");
    for name in [
        "counting-loop",
        "copy-seq",
        "copy-dynamic",
        "deep-expression",
        "deep-commands",
        "sort",
        "pointers",
        "start-values",
        "start-values-dynamic",
    ] {
        run(name, &[named(name)]);
    }
    run("thirty small routines", &trays);
}
