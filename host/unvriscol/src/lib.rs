//! RISC-V words and halfwords to ops, blocks of them, a cache of blocks, and the ALU kinds without multiply and divide, by functions that are
//! proved: on all inputs, equal to those of capsulerun/vpod that they replace, or in the manual's [`Reading`] to the RISC-V manual. The names are the
//! original's.
//!
//! ```
#![doc = include_str!("../examples/start.rs")]
//! ```
//!
//! A decoded op is also the record of sixteen bytes that the C functions write, and what is refused is an [`Error`]:
//!
//! ```
//! use unvriscol::{AluKind, Error, Op, Reading, alu, decode_halfword, decode_word};
//!
//! let decoded = decode_word(Reading::Rust, 0x0010_0513)?;
//! assert_eq!(decoded.to_record(), [2, 0, 10, 0, 0, 4, 0, 0, 1, 0, 0, 0, 0, 0, 0, 0]);
//!
//! // c.ebreak has no op, and multiply is not taken.
//! assert_eq!(decode_halfword(Reading::Rust, 0x9002), Err(Error::NothingThere));
//! assert_eq!(alu(AluKind::Mul, 6, 7), Err(Error::NoKind));
//!
//! // MINU: the original decodes it as MAX, and the manual's reading by the manual.
//! let minu = decode_word(Reading::Manual, 0x0AC5_D533)?;
//! assert!(matches!(minu.op, Op::AluReg { kind: AluKind::Minu, .. }));
//! # Ok::<(), Error>(())
//! ```
//!
//! The promises stand in docs/PROMISES.md; what this crate adds to them, the way from a record to an enum and back, is tested and not proved.

mod block;
pub mod door;
mod error;
mod op;
mod reading;
mod store;

pub use block::{Block, GuestMemory, MAX_BLOCK_OPS, Ops, decode_block, form, form_into};
pub use error::Error;
pub use op::{AluKind, BranchKind, DecodedInsn, LoadKind, Op, StoreKind};
pub use reading::Reading;
pub use store::{BlockCache, Report, Store, store_len};

/// Decodes a word: its op at offset 0, four bytes long. [`Error::NothingThere`] where the word has no op.
pub fn decode_word(reading: Reading, raw: u32) -> Result<DecodedInsn, Error> {
    let mut record = [0; DecodedInsn::LEN];
    decode_word_into(reading, raw, &mut record)?;
    Ok(DecodedInsn::proved(&record))
}

/// Decodes a halfword: its op at offset 0, two bytes long. [`Error::NothingThere`] where the halfword has no op.
pub fn decode_halfword(reading: Reading, raw: u16) -> Result<DecodedInsn, Error> {
    let mut record = [0; DecodedInsn::LEN];
    decode_halfword_into(reading, raw, &mut record)?;
    Ok(DecodedInsn::proved(&record))
}

/// Decodes a word into the caller's record of sixteen bytes, which an error leaves as it was.
#[inline]
pub fn decode_word_into(reading: Reading, raw: u32, record: &mut [u8]) -> Result<(), Error> {
    // SAFETY: the pointer and the length are those of one slice, which is lent for the call.
    Error::check(unsafe {
        door::uv_decode_word(reading.number(), raw, record.as_mut_ptr(), record.len())
    })
}

/// Decodes a halfword into the caller's record of sixteen bytes, which an error leaves as it was.
#[inline]
pub fn decode_halfword_into(reading: Reading, raw: u16, record: &mut [u8]) -> Result<(), Error> {
    // SAFETY: the pointer and the length are those of one slice, which is lent for the call.
    Error::check(unsafe {
        door::uv_decode_halfword(reading.number(), raw, record.as_mut_ptr(), record.len())
    })
}

/// What a kind makes of two operands. [`Error::NoKind`] for multiply and divide, which stay with the host.
#[inline]
pub fn alu(kind: AluKind, lhs: u64, rhs: u64) -> Result<u64, Error> {
    door::uv_alu(kind as u64, lhs, rhs).checked()
}
