//! A host in Rust: it reads, checks, marks and runs the files named on its command line.

mod sledkindle;

use std::{env, fs};

fn show(name: &str, file: &[u8]) -> Result<(), sledkindle::Refusal> {
    sledkindle::read(file)?;
    let marking = sledkindle::infer(file)?;
    sledkindle::check(file, &marking)?;
    let mut memory = vec![0; 4096];
    let (outcome, units) = sledkindle::run(file, &marking, 1_000_000, &mut memory)?;
    println!("{name}: {outcome:?} after {units} units under {marking:?}");
    Ok(())
}

fn main() {
    for name in env::args().skip(1) {
        match fs::read(&name) {
            Ok(file) => {
                if let Err(refusal) = show(&name, &file) {
                    println!("{name}: {refusal}");
                }
            }
            Err(error) => println!("{name}: {error}"),
        }
    }
}
