//! Times Unvriscol's C functions and the original Rust's side by side. [`USAGE`] says how it is asked: `cargo run --release -p bench`, with the
//! variable VPOD set (host/oracle/build.rs).
//!
//! Both sides are called and not inlined: ours is a C function, and the original's functions stand behind `#[inline(never)]`. Both leave what
//! they decode in memory, ours as a record, the original as an `Option<Op>` or a `Block` in a box. Where there is a floor, it is the loads
//! or the stores that the work must make. Each round times the sides in turn, and the best round of each counts.
mod cache;
mod work;

use oracle::made::{Given, given};
use std::hint::black_box;
use std::process::{Command, ExitCode};
use std::time::Instant;
use work::{Calls, Side, Target, Work};

const USAGE: &str = "\
usage: bench [--instructions] [--image FILE].. [ROW]..

Times Unvriscol's C functions and the original Rust's side by side: nanoseconds per call, of the best of many rounds. Ours is in the Rust reading;
where a call has a reading, ours in the manual's stands beside it. A list of notices is timed per address, and beside it ours with a call for each.

  --instructions  count instructions by callgrind instead, which do not depend on the machine's load (needs valgrind)
  --image FILE    the words, halfwords and blocks of a file, repeated to 64 pages or more, in place of made ones; may be given often, for a table each
  --help          this text

A ROW is a word of the names below; all of them are timed where none is given.
";

/// Many short rounds: a pass takes a millisecond or two, so that on a loaded machine some of them run undisturbed.
const ROUNDS: usize = 300;

#[derive(Default)]
struct Plan {
    images: Vec<Given>,
    /// The rows to time, by words of their names; all where there is none.
    rows: Vec<String>,
    instructions: bool,
    /// A row and a side, to be run once: what callgrind is started on.
    once: Option<(usize, Side)>,
}

fn main() -> ExitCode {
    match plan() {
        Ok(Some(plan)) => match tables(&plan) {
            Ok(()) => ExitCode::SUCCESS,
            Err(why) => {
                eprintln!("bench: {why}");
                ExitCode::FAILURE
            }
        },
        Ok(None) => {
            print!("{USAGE}");
            for name in names() {
                println!("  {name}");
            }
            ExitCode::SUCCESS
        }
        Err(why) => {
            eprintln!("bench: {why}");
            ExitCode::from(2)
        }
    }
}

/// The rows' names, which no image changes.
fn names() -> Vec<String> {
    let rows = work::rows(None);
    rows.into_iter().map(|work| work.name).collect()
}

fn tables(plan: &Plan) -> Result<(), String> {
    if plan.images.is_empty() {
        return table(plan, None);
    }
    for image in &plan.images {
        println!("image {}: length {}\n", image.0, image.1.len());
        table(plan, Some(image))?;
        println!();
    }
    Ok(())
}

/// The table for an image, or for what is made where there is none.
fn table(plan: &Plan, image: Option<&Given>) -> Result<(), String> {
    let mut rows = work::rows(image.map(|(_, bytes)| &bytes[..]));
    if let Some((row, side)) = plan.once {
        let calls = &mut *rows.get_mut(row).ok_or("no such row")?.calls;
        calls.prepare(side);
        bench_measured(calls, side);
        return Ok(());
    }
    let unit = if plan.instructions {
        "instructions"
    } else {
        "ns"
    };
    println!(
        "| {unit} per call | Rust | floor | ours | ours over Rust | ours over floor | target (time) | ours, manual's | over ours | ours, singly | ours over that |"
    );
    println!("|---|---|---|---|---|---|---|---|---|---|---|");
    for (at, work) in rows.iter_mut().enumerate() {
        if !plan.rows.is_empty() && !plan.rows.iter().any(|row| work.name.contains(row)) {
            continue;
        }
        if work.calls.len(Side::Ours) == 0 {
            println!("| {} | | | | | | none in the image | | | | |", work.name);
            continue;
        }
        let costs = if plan.instructions {
            counted(at, work, image)?
        } else {
            timed(work)
        };
        println!("{}", line(work, costs));
    }
    Ok(())
}

/// A side's cost of one pass; none where the row lacks the side.
type Costs = [Option<f64>; Side::COUNT];

fn line(work: &Work, costs: Costs) -> String {
    let cost = |side: Side| Some(costs[side as usize]? / work.calls.len(side) as f64);
    let each = |side| cost(side).map_or(String::new(), |cost| format!("{cost:.1}"));
    let over = |one, other| {
        let ratio = cost(one)
            .zip(cost(other))
            .map(|(one, other)| one / other)
            // A pass of a few calls can be shorter than the clock tells.
            .filter(|ratio| ratio.is_finite());
        ratio.map_or(String::new(), |ratio| format!("{ratio:.2}"))
    };
    let target = match work.target {
        Some(Target { over, most }) => {
            let over = match over {
                Side::Floor => " of the floor",
                Side::Singly => " of single calls",
                _ => "",
            };
            format!("{most:.2}{over}")
        }
        None => String::new(),
    };
    format!(
        "| {} | {} | {} | {} | {} | {} | {target} | {} | {} | {} | {} |",
        work.name,
        each(Side::Rust),
        each(Side::Floor),
        each(Side::Ours),
        over(Side::Ours, Side::Rust),
        over(Side::Ours, Side::Floor),
        each(Side::Manual),
        over(Side::Manual, Side::Ours),
        each(Side::Singly),
        over(Side::Ours, Side::Singly)
    )
}

/// One pass over a row's calls on one side. Its name is what callgrind watches for.
#[unsafe(no_mangle)]
#[inline(never)]
fn bench_measured(calls: &mut dyn Calls, side: Side) -> u64 {
    calls.pass(side)
}

/// Nanoseconds for one pass on each side, in the best round.
fn timed(work: &mut Work) -> Costs {
    let mut best = [None; Side::COUNT];
    for _ in 0..ROUNDS {
        for &side in work.sides {
            work.calls.prepare(side);
            let start = Instant::now();
            black_box(bench_measured(&mut *work.calls, side));
            let cost = start.elapsed().as_nanos() as f64;
            work.calls.tidy(side);
            let best = &mut best[side as usize];
            *best = Some(best.map_or(cost, |best: f64| best.min(cost)));
        }
    }
    best
}

/// Instructions for one pass on each side, counted by callgrind on this program itself.
fn counted(row: usize, work: &Work, image: Option<&Given>) -> Result<Costs, String> {
    let mut counts = [None; Side::COUNT];
    for &side in work.sides {
        let run = Command::new("valgrind")
            .args([
                "--tool=callgrind",
                "--callgrind-out-file=/dev/null",
                "--toggle-collect=bench_measured",
            ])
            .arg(std::env::current_exe().map_err(|error| error.to_string())?)
            .args(["--once", &row.to_string(), &(side as usize).to_string()])
            .args(image.iter().flat_map(|(name, _)| ["--image", name]))
            .output()
            .map_err(|error| format!("valgrind does not run: {error}"))?;
        let said = String::from_utf8_lossy(&run.stderr);
        let count = said
            .split_once("Collected : ")
            .and_then(|(_, rest)| rest.split_whitespace().next()?.parse::<f64>().ok())
            .ok_or_else(|| format!("valgrind gave no count:\n{said}"))?;
        counts[side as usize] = Some(count);
    }
    Ok(counts)
}

/// The plan, or none where the usage is asked for.
fn plan() -> Result<Option<Plan>, String> {
    let mut plan = Plan::default();
    let mut words = std::env::args().skip(1);
    while let Some(word) = words.next() {
        match word.as_str() {
            "--help" | "-h" => return Ok(None),
            "--instructions" => plan.instructions = true,
            "--image" => plan.images.push(given(words.next())?),
            "--once" => {
                let mut number = || words.next()?.parse::<usize>().ok();
                let once = number().zip(number().and_then(|side| Side::ALL.get(side).copied()));
                plan.once = Some(once.ok_or("--once wants a row and a side")?);
            }
            _ if names().iter().any(|name| name.contains(word.as_str())) => plan.rows.push(word),
            _ => {
                return Err(format!(
                    "{word} is no option and no row; --help lists both, and --image names a file"
                ));
            }
        }
    }
    Ok(Some(plan))
}
