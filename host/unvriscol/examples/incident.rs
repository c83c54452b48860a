//! The plant's failure, and the same day with Unvriscol. A loader puts a new routine into guest memory while the core has the old one's block in its
//! cache. On the original the loader can write and tell the cache nothing, and the core goes on running the old block. On ours the write is one call
//! that also drops the page's blocks.
//!
//! ```text
//! cargo run -p unvriscol --example incident        # in host/; where VPOD names a checkout of capsulerun/vpod it shows the original first
//! ```
use unvriscol::{AluKind, BlockCache, Error, Op, Report, alu};

const BASE: u64 = 0x8000_0000;
const PAGES: u64 = 16;
const ROUTINE: u64 = BASE + 0x1000;

/// What the routine leaves in a0 is what the contactor is told: 0 open, 1 closed.
const OLD: [u8; 6] = [0x13, 0x05, 0x00, 0x00, 0x82, 0x80]; // addi a0, zero, 0; ret
const NEW: [u8; 6] = [0x13, 0x05, 0x10, 0x00, 0x82, 0x80]; // addi a0, zero, 1; ret

fn said(a0: u64) -> &'static str {
    if a0 == 0 {
        "a0 = 0: the contactor stays OPEN"
    } else {
        "a0 = 1: the contactor CLOSES"
    }
}

fn step(number: u32, what: &str) {
    println!("  {number}. {what}");
}

oracle::if_original! {
    {
        mod original {
            use super::{BASE, NEW, OLD, PAGES, ROUTINE, said, step};
            use oracle::block::{Block, BlockCache, Op, computed, decode_block};
            use oracle::system_bus::{FlatMemory, SystemBus};

            /// The core at the routine: the cached block, or the one that it forms and caches; and what it leaves in a0.
            fn fetch(blocks: &mut BlockCache, bus: &mut FlatMemory) -> (&'static str, u64) {
                if let Some(cached) = blocks.lookup(ROUTINE) {
                    return ("finds the block in its cache", run(&cached));
                }
                let decoded = decode_block(bus, ROUTINE).expect("a routine");
                let cached = blocks.insert(ROUTINE, decoded);
                ("misses, forms the block from memory and caches it", run(&cached))
            }

            fn run(block: &Block) -> u64 {
                block.ops.iter().fold(0, |a0, decoded| match decoded.op {
                    Op::AluImm { kind, rd: 10, rs1: 0, imm } => computed(kind, 0, imm as u64),
                    _ => a0,
                })
            }

            pub fn show() {
                println!("The original's cache (capsulerun/vpod)");
                let mut bus = FlatMemory::new((PAGES * 4096) as usize);
                bus.load_at((ROUTINE - BASE) as usize, &OLD);
                let mut blocks = BlockCache::new();
                step(1, &format!("memory at {ROUTINE:#x} holds the old routine, {OLD:02x?}"));
                let (how, a0) = fetch(&mut blocks, &mut bus);
                step(2, &format!("the core {how}; {}", said(a0)));
                for (address, byte) in (ROUTINE..).zip(NEW) {
                    bus.write_byte(address, byte);
                }
                step(3, &format!("the loader writes the new routine, {NEW:02x?}; nothing makes it call notify_store, and it does not"));
                let (how, a0) = fetch(&mut blocks, &mut bus);
                step(4, &format!("the core {how}; {}", said(a0)));
                let now = run(&decode_block(&mut bus, ROUTINE).expect("a routine"));
                step(5, &format!("memory has said otherwise since step 3: {}", said(now)));
                assert_eq!((a0, now), (0, 1), "the failure");
                println!("  The core runs code that is no longer there.\n");
            }
        }
    } else {
        mod original {
            pub fn show() {
                println!("The original's cache: no checkout of capsulerun/vpod is at hand (name one in VPOD), so it is not shown.\n");
            }
        }
    }
}

/// The same core on ours.
fn fetch(blocks: &mut BlockCache, memory: &[u8]) -> Result<(&'static str, u64), Error> {
    if let Some(cached) = blocks.lookup(ROUTINE) {
        return Ok(("finds the block in its cache", run(&cached)?));
    }
    let decoded = blocks.form(memory, ROUTINE)?;
    let cached = blocks.insert(ROUTINE, decoded);
    Ok((
        "misses, forms the block from memory and caches it",
        run(&cached)?,
    ))
}

fn run(block: &unvriscol::Block) -> Result<u64, Error> {
    block
        .ops
        .iter()
        .try_fold(0, |a0, decoded| match decoded.op {
            Op::AluImm {
                kind: kind @ AluKind::Add,
                rd: 10,
                rs1: 0,
                imm,
            } => alu(kind, 0, imm as u64),
            _ => Ok(a0),
        })
}

fn ours() -> Result<(), Error> {
    println!("Unvriscol's cache");
    let mut memory = vec![0; (PAGES * 4096) as usize];
    memory[(ROUTINE - BASE) as usize..][..OLD.len()].copy_from_slice(&OLD);
    let mut blocks = BlockCache::new(14, BASE, PAGES)?;
    step(
        1,
        &format!("memory at {ROUTINE:#x} holds the old routine, {OLD:02x?}"),
    );
    let (how, a0) = fetch(&mut blocks, &memory)?;
    step(2, &format!("the core {how}; {}", said(a0)));
    // A word and a halfword.
    let [a, b, c, d, e, f] = NEW;
    let word = u32::from_le_bytes([a, b, c, d]).into();
    let halfword = u16::from_le_bytes([e, f]).into();
    let Report { examined, dropped } = blocks.guest_write(&mut memory, ROUTINE, 4, word)?
        + blocks.guest_write(&mut memory, ROUTINE + 4, 2, halfword)?;
    step(
        3,
        &format!(
            "the loader writes the new routine, {NEW:02x?}, by guest_write; {examined} slots are examined, and {dropped} block is dropped: the write hit live code"
        ),
    );
    assert_eq!((examined, dropped), (16_384, 1), "the old routine's block");
    let (how, a0) = fetch(&mut blocks, &memory)?;
    step(4, &format!("the core {how}; {}", said(a0)));
    assert_eq!(a0, 1, "what memory says");
    println!("  The core runs what memory holds.");
    Ok(())
}

fn main() -> Result<(), Error> {
    original::show();
    ours()
}
