//! The second program. It has the product's operations written again from the papers, the model; the product is linked into it, and both
//! are compared on cases by hand and by a seed.

mod aimed;
mod bench;
mod boards;
mod case;
mod compare;
mod definitions;
mod example;
mod expected;
mod forge;
mod generate;
mod guarded;
mod interrupted;
mod model;
mod numbers;
mod operations;
mod posting;
mod product;
mod rounds;
mod smallest;
mod source;
mod ties;
mod vectors;

use model::record::hex;
use model::{draw, group, primes, sha256};
use operations::Operation;
use std::error::Error;
use std::path::Path;
use std::process::ExitCode;
use std::{env, fs};

type Done = Result<(), Box<dyn Error>>;

const USAGE: &str = "usage: reference compare SEED COUNT [OPERATION] | show OPERATION SEED NUMBER
       reference vectors DIR | forge DIR | example DIR | rounds DIR | draw DIR
       reference bench .. | largest | digest FILE";

/// The primes p and q of group 3: the largest below 2^32.
fn largest() -> Result<(u32, u32), Box<dyn Error>> {
    let found = primes::largest_safe_prime(1 << 32);
    let group = group::group(&[], 3).map_err(|number| format!("refused {number}"))?;
    if (group.p.into(), group.q.into()) != found {
        return Err("group 3 is not the largest below 2^32".into());
    }
    Ok((group.p, group.q))
}

/// Writes files of these names and bytes to a folder.
fn write_files<N: AsRef<str>>(folder: &str, files: &[(N, Vec<u8>)]) -> Done {
    for (name, bytes) in files {
        fs::write(Path::new(folder).join(name.as_ref()), bytes)?;
    }
    Ok(())
}

/// The files that are committed in tests/vectors.
fn write_vectors(folder: &str) -> Done {
    write_files(folder, &vectors::files())?;
    write_files(
        folder,
        &[("answers.digests", vectors::digests().into_bytes())],
    )
}

/// One case with both answers.
fn show(operation: &str, seed: u64, number: u64) -> Done {
    let operation = Operation::named(operation).ok_or("there is no such operation")?;
    let (case, label) = compare::drawn(operation, seed, number);
    let product = (operation.product)(&case, &mut guarded::Memory::new());
    let text = compare::shown(operation, &case, [&product, &(operation.model)(&case)]);
    print!("{label}\n{text}");
    Ok(())
}

fn compare(seed: &str, count: &str, only: Option<&str>) -> Done {
    let named = |name| Operation::named(name).ok_or("there is no such operation");
    let only = only.map(named).transpose()?;
    interrupted::tell();
    if compare::run(seed.parse()?, count.parse()?, only) {
        return Ok(());
    }
    Err("product and model differ, or a number was not reached".into())
}

fn run(words: &[&str]) -> Done {
    match words[..] {
        ["compare", seed, count] => compare(seed, count, None)?,
        ["compare", seed, count, operation] => compare(seed, count, Some(operation))?,
        ["show", operation, seed, number] => show(operation, seed.parse()?, number.parse()?)?,
        ["vectors", folder] => write_vectors(folder)?,
        ["rounds", folder] => println!("{}", rounds::write(Path::new(folder))?),
        ["bench", ref rest @ ..] => bench::run(rest)?,
        ["forge", folder] => {
            write_files(folder, &forge::files())?;
            write_files(folder, &[("definitions", definitions::text().into_bytes())])?;
        }
        ["example", folder] => write_files(folder, &example::files())?,
        ["draw", folder] => print!("{}", draw::text_of(Path::new(folder))),
        ["largest"] => {
            let (p, q) = largest()?;
            println!("{p} {q}");
        }
        ["digest", file] => println!("{}", hex(&sha256::sha256(&fs::read(file)?))),
        _ => return Err(USAGE.into()),
    }
    Ok(())
}

fn main() -> ExitCode {
    let words: Vec<String> = env::args().skip(1).collect();
    let words: Vec<&str> = words.iter().map(String::as_str).collect();
    match run(&words) {
        Ok(()) => ExitCode::SUCCESS,
        Err(error) => {
            eprintln!("reference: {error}");
            ExitCode::FAILURE
        }
    }
}
