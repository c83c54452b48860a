//! Holds Unvriscol's answers against the original Rust's, through the C functions: numbers, values and every lent byte. [`USAGE`] says how it is
//! asked; `cargo run --release -p compare` takes about a minute, with the variable VPOD set (host/oracle/build.rs).
mod alu;
mod cache;
mod decode;
mod form;
mod manual;
mod model;
mod record;
mod replay;
mod tally;
mod typed;

use oracle::made::{Given, given};
use std::process::ExitCode;
use std::time::Instant;
use tally::Tally;

const USAGE: &str = "\
usage: compare [--all] [--seed N] [--image FILE].. [PART]..
       compare --replay FOLDER

Holds Unvriscol's answers against the original Rust's: numbers, values and every lent byte; in the manual's reading against the entries of
docs/DIFFERENCES.md, and the Rust's outside them. The last line counts them. The exit status is 1 where any differs, and 2 where the command line is
not as above.

  --all            every word, and more of the rest; without it about a minute
  --seed N         the random part from another seed than 1
  --image FILE     form at every offset of a file's bytes too, as they stand; may be repeated
  --replay FOLDER  no comparison: write the original's answers down, as stdin and stdout of crates/replay
  --help           this text

A PART is a word of the names below; all of them run where none is given.
";

/// What is asked for on the command line.
pub struct Plan {
    pub all: bool,
    pub seed: u64,
    /// Files to form blocks of.
    pub images: Vec<Given>,
    /// The parts to run, by words of their names; all where there is none.
    pub parts: Vec<String>,
    /// Where to write the replay's files, instead of comparing.
    pub replay: Option<String>,
}

impl Plan {
    fn wants(&self, name: &str) -> bool {
        self.parts.is_empty() || self.parts.iter().any(|part| name.contains(part.as_str()))
    }
}

type Part = (&'static str, fn(&Plan, &mut Tally));

const PARTS: [Part; 12] = [
    ("halfwords", decode::rust_halfwords),
    ("halfwords, the manual's", decode::manual_halfwords),
    ("words", decode::rust_words),
    ("words, the manual's", decode::manual_words),
    ("decoding, refused", decode::refusals),
    ("ALU", alu::run),
    ("forming", form::rust_images),
    ("forming, the manual's", form::manual_images),
    ("forming, refused", form::refusals),
    ("cache calls, by the model", cache::histories),
    ("cache calls, by the Rust's", cache::original),
    ("the typed crate", typed::run),
];

fn main() -> ExitCode {
    let plan = match plan() {
        Ok(Some(plan)) => plan,
        Ok(None) => {
            print!("{USAGE}");
            for (name, _) in PARTS {
                println!("  {name}");
            }
            return ExitCode::SUCCESS;
        }
        Err(why) => {
            eprintln!("compare: {why}");
            return ExitCode::from(2);
        }
    };
    if let Some(folder) = &plan.replay {
        return match replay::write(folder.as_ref()) {
            Ok(()) => ExitCode::SUCCESS,
            Err(why) => {
                eprintln!("{folder}: {why}");
                ExitCode::FAILURE
            }
        };
    }
    println!("seed {}", plan.seed);
    let mut whole = Tally::default();
    for (name, run) in PARTS.into_iter().filter(|(name, _)| plan.wants(name)) {
        let start = Instant::now();
        let mut tally = Tally::default();
        run(&plan, &mut tally);
        println!("{name}: {tally}, {:.1} s", start.elapsed().as_secs_f64());
        whole.add(&tally);
    }
    println!("all: {whole}");
    if whole.differ == 0 {
        ExitCode::SUCCESS
    } else {
        ExitCode::FAILURE
    }
}

/// The plan, or none where the usage is asked for.
fn plan() -> Result<Option<Plan>, String> {
    let mut plan = Plan {
        all: false,
        seed: 1,
        images: Vec::new(),
        parts: Vec::new(),
        replay: None,
    };
    let mut words = std::env::args().skip(1);
    while let Some(word) = words.next() {
        match word.as_str() {
            "--help" | "-h" => return Ok(None),
            "--all" => plan.all = true,
            "--seed" => {
                let number = words.next().ok_or("--seed wants a number")?;
                plan.seed = number.parse().map_err(|_| format!("{number} is no seed"))?;
            }
            "--replay" => plan.replay = Some(words.next().ok_or("--replay wants a folder")?),
            "--image" => plan.images.push(given(words.next())?),
            _ if PARTS.iter().any(|(name, _)| name.contains(word.as_str())) => {
                plan.parts.push(word)
            }
            _ => {
                return Err(format!(
                    "{word} is no option and no part; --help lists both"
                ));
            }
        }
    }
    if !plan.images.is_empty() && !plan.wants("forming") {
        return Err("an image is for the part forming, which is not asked for".into());
    }
    Ok(Some(plan))
}
