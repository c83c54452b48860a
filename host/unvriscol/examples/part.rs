//! Where the two readings part in an image: for whoever moves a plant from one to the other. Each address at which the blocks of the two readings have
//! different ops, in order: the address, the encoding, the Rust's op and the manual's. `Fallback` is a word without an op that the block keeps, and
//! `none` a place where a block stops.
//!
//! ```text
//! cargo run -p unvriscol --example part -- FILE [BASE]        # in host/; FILE is a flat binary, BASE the address of its first byte (0)
//! ```
//!
//! Each page is walked in each reading: a block at its start, and then at the end of the last one. Where none forms the walk goes on behind the encoding
//! there, of 2 or 4 bytes; where the page's end cuts a word, the next page begins behind that word. Data among the code is read as code, and
//! an address within an encoding of this walk is not looked at, though a guest might jump there.
use std::collections::BTreeMap;
use std::fmt;
use std::process::ExitCode;
use unvriscol::{Op, Reading, form};

const PAGE: usize = 4096;

/// An address at which the readings part, with what each has there.
#[derive(Debug, PartialEq)]
pub struct Parting {
    pub address: u64,
    /// A word, or a halfword.
    pub raw: u32,
    pub rust: Option<Op>,
    pub manual: Option<Op>,
}

impl fmt::Display for Parting {
    fn fmt(&self, f: &mut fmt::Formatter<'_>) -> fmt::Result {
        let digits = if self.raw & 3 == 3 { 8 } else { 4 };
        let shown = |op: &Option<Op>| op.map_or("none".into(), |op| format!("{op:?}"));
        let (rust, manual) = (shown(&self.rust), shown(&self.manual));
        write!(f, "{:#x}: {:0digits$x}", self.address, self.raw)?;
        write!(f, "  Rust: {rust}  manual: {manual}")
    }
}

/// The encoding at an offset, a word or a halfword, and its length; none where the bytes end.
fn encoding(bytes: &[u8], at: usize) -> Option<(u32, usize)> {
    let low = u16::from_le_bytes(*bytes.get(at..)?.first_chunk()?);
    if low & 3 != 3 {
        return Some((low.into(), 2));
    }
    Some((u32::from_le_bytes(*bytes[at..].first_chunk()?), 4))
}

/// The ops of an image's blocks in a reading, by their offsets.
fn ops(reading: Reading, bytes: &[u8], base: u64) -> BTreeMap<usize, Op> {
    let mut ops = BTreeMap::new();
    let mut at = 0;
    while let Some((_, len)) = encoding(bytes, at) {
        match form(reading, bytes, base, base + at as u64) {
            Ok(block) => {
                let offsets = block.ops.iter();
                ops.extend(offsets.map(|op| (at + usize::from(op.pc_off), op.op)));
                at += block.byte_len as usize;
            }
            Err(_) => at += len,
        }
    }
    ops
}

/// The partings of an image of whole pages.
pub fn partings(bytes: &[u8], base: u64) -> Vec<Parting> {
    let [rust, manual] = Reading::ALL.map(|reading| ops(reading, bytes, base));
    // Both walks meet the same encodings, since a length is in the low bits.
    let mut met: Vec<usize> = rust.keys().chain(manual.keys()).copied().collect();
    met.sort_unstable();
    met.dedup();
    met.into_iter()
        .filter(|at| rust.get(at) != manual.get(at))
        .map(|at| Parting {
            address: base + at as u64,
            raw: encoding(bytes, at).expect("an op").0,
            rust: rust.get(&at).copied(),
            manual: manual.get(&at).copied(),
        })
        .collect()
}

fn run() -> Result<(), String> {
    const USAGE: &str = "usage: part FILE [BASE]";
    let mut words = std::env::args().skip(1);
    let name = words.next().ok_or(USAGE)?;
    let base = words.next().unwrap_or("0".into());
    if words.next().is_some() {
        return Err(USAGE.into());
    }
    let number = match base.strip_prefix("0x") {
        Some(digits) => u64::from_str_radix(digits, 16),
        None => base.parse(),
    };
    let base = number.map_err(|_| format!("{base} is no base: a number, decimal or 0x.."))?;
    let mut bytes = std::fs::read(&name).map_err(|why| format!("{name}: {why}"))?;
    if bytes.starts_with(b"\x7fELF") {
        return Err(format!(
            "{name} is an ELF file; a flat binary is wanted: riscv64-linux-gnu-objcopy -O binary FILE FLAT"
        ));
    }
    bytes.resize(bytes.len().next_multiple_of(PAGE), 0);
    // Whatever is at the base, the call says whether such a memory is within the bounds.
    if form(Reading::Rust, &bytes, base, base) == Err(unvriscol::Error::Geometry) {
        return Err(format!(
            "{} bytes from {base:#x} on are no memory: 1 to 65,536 pages, from a multiple of 4,096 on, up to 2^56",
            bytes.len()
        ));
    }
    let partings = partings(&bytes, base);
    for parting in &partings {
        println!("{parting}");
    }
    println!("{} addresses where the readings part", partings.len());
    Ok(())
}

#[allow(dead_code)] // tests/part.rs takes the rest
fn main() -> ExitCode {
    match run() {
        Ok(()) => ExitCode::SUCCESS,
        Err(why) => {
            eprintln!("part: {why}");
            ExitCode::from(2)
        }
    }
}
