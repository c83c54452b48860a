//! Blocks: the record of 1,040 bytes (docs/FORMATS.md, "The block record"), and the same by value with the original's fields.
use crate::{DecodedInsn, Error, Reading, door};
use std::fmt;

/// The most ops that a block has.
pub const MAX_BLOCK_OPS: usize = 64;

/// A block, with the original's fields. It is a copy: like the original's `Arc`, it stays what it is whatever becomes of the cache.
#[derive(Clone, Debug, PartialEq, Eq)]
pub struct Block {
    pub ops: Ops,
    pub byte_len: u32,
}

/// The ops of a block, as their records; each becomes a [`DecodedInsn`] when it is asked for.
#[derive(Clone, PartialEq, Eq)]
pub struct Ops {
    records: [[u8; DecodedInsn::LEN]; MAX_BLOCK_OPS],
    count: usize,
}

impl Ops {
    pub fn len(&self) -> usize {
        self.count
    }

    pub fn is_empty(&self) -> bool {
        self.count == 0
    }

    /// The ops in their order.
    pub fn iter(&self) -> impl ExactSizeIterator<Item = DecodedInsn> + '_ {
        self.records[..self.count].iter().map(DecodedInsn::proved)
    }
}

impl fmt::Debug for Ops {
    fn fmt(&self, f: &mut fmt::Formatter<'_>) -> fmt::Result {
        f.debug_list().entries(self.iter()).finish()
    }
}

impl Block {
    /// The length of a block record.
    pub const LEN: usize = Self::HEAD + MAX_BLOCK_OPS * DecodedInsn::LEN;
    const HEAD: usize = 16;

    /// The block record for an address.
    pub fn to_record(&self, address: u64) -> [u8; Self::LEN] {
        let mut record = [0; Self::LEN];
        record[..8].copy_from_slice(&address.to_le_bytes());
        record[8..10].copy_from_slice(&(self.ops.count as u16).to_le_bytes());
        record[10..12].copy_from_slice(&(self.byte_len as u16).to_le_bytes());
        record[Self::HEAD..].copy_from_slice(self.ops.records.as_flattened());
        record
    }

    /// The block of a record; its address is left out. None where the length, the count or an op's record is not a block's, as in a store that
    /// something else wrote on. The other rules of docs/FORMATS.md, "Well-formed records", as on offsets, are not judged here.
    pub fn from_record(record: &[u8]) -> Option<Self> {
        let record: &[u8; Self::LEN] = record.try_into().ok()?;
        let number = |at| u16::from_le_bytes([record[at], record[at + 1]]);
        let mut ops = Ops {
            records: [[0; DecodedInsn::LEN]; MAX_BLOCK_OPS],
            count: number(8).into(),
        };
        if ops.count == 0 {
            return None;
        }
        let used = ops.records.get_mut(..ops.count)?;
        used.as_flattened_mut()
            .copy_from_slice(&record[Self::HEAD..][..ops.count * DecodedInsn::LEN]);
        used.iter()
            .all(|op| DecodedInsn::from_record(op).is_some())
            .then_some(Self {
                ops,
                byte_len: number(10).into(),
            })
    }
}

/// The guest's memory, as a bus has it: plain bytes, and the address of the first.
pub trait GuestMemory {
    fn bytes(&self) -> &[u8];
    fn base(&self) -> u64;
}

/// Bytes beside their base.
impl GuestMemory for (&[u8], u64) {
    fn bytes(&self) -> &[u8] {
        self.0
    }
    fn base(&self) -> u64 {
        self.1
    }
}

/// Forms the block at an address of memory, in a reading. [`Error::NothingThere`] where none forms.
pub fn form(reading: Reading, memory: &[u8], base: u64, address: u64) -> Result<Block, Error> {
    let mut record = [0; Block::LEN];
    form_into(reading, memory, base, address, &mut record)?;
    Ok(Block::from_record(&record).expect("a call's record is proved to be a block's"))
}

/// Forms the block at an address of memory into the caller's record of 1,040 bytes, which an error leaves as it was.
#[inline]
pub fn form_into(
    reading: Reading,
    memory: &[u8],
    base: u64,
    address: u64,
    record: &mut [u8],
) -> Result<(), Error> {
    // SAFETY: each pointer and length are those of one slice, lent for the call; the second is lent alone.
    Error::check(unsafe {
        door::uv_form(
            reading.number(),
            memory.as_ptr(),
            memory.len(),
            base,
            address,
            record.as_mut_ptr(),
            record.len(),
        )
    })
}

/// The block at an address, if one forms there: [`form`] under the original's name.
pub fn decode_block<M: GuestMemory + ?Sized>(
    reading: Reading,
    bus: &M,
    physical_address: u64,
) -> Option<Block> {
    form(reading, bus.bytes(), bus.base(), physical_address).ok()
}

#[cfg(test)]
mod tests {
    use super::*;
    use crate::{AluKind, Op};

    /// addi a0, zero, 1 and ret.
    fn page() -> Vec<u8> {
        let mut page = vec![0; 4096];
        page[..6].copy_from_slice(&[0x13, 0x05, 0x10, 0x00, 0x82, 0x80]);
        page
    }

    #[test]
    fn the_sample() {
        let page = page();
        let memory = (&page[..], 0x8000_0000);
        let block = decode_block(Reading::Rust, &memory, 0x8000_0000).unwrap();
        let by_manual = decode_block(Reading::Manual, &memory, 0x8000_0000);
        assert_eq!(by_manual.as_ref(), Some(&block));
        assert_eq!((block.ops.len(), block.byte_len), (2, 6));
        let [first, second] = block.ops.iter().collect::<Vec<_>>()[..] else {
            panic!("two ops")
        };
        let op = Op::AluImm {
            kind: AluKind::Add,
            rd: 10,
            rs1: 0,
            imm: 1,
        };
        assert_eq!((first.op, first.pc_off, first.ilen), (op, 0, 4));
        assert_eq!((second.pc_off, second.ilen), (4, 2));
    }

    #[test]
    fn a_record_and_its_block() {
        let mut record = [0xA5; Block::LEN];
        form_into(Reading::Rust, &page(), 0, 0, &mut record).unwrap();
        let block = Block::from_record(&record).unwrap();
        assert_eq!(block.to_record(0), record);
        for (at, byte) in [(8, 0), (8, 65), (9, 1), (16, 10)] {
            let mut record = record;
            record[at] = byte;
            assert_eq!(Block::from_record(&record), None, "byte {at} is {byte}");
        }
        assert_eq!(Block::from_record(&record[1..]), None);
    }

    #[test]
    fn refusals_in_their_order() {
        let page = page();
        let mut record = [0xA5; Block::LEN];
        let mut answer = |memory: &[u8], base, address, len| {
            form_into(Reading::Manual, memory, base, address, &mut record[..len]).unwrap_err()
        };
        assert_eq!(answer(&page[1..], 0, 4096, 1), Error::Geometry);
        assert_eq!(answer(&page, 0, 4096, 1039), Error::RecordLength);
        assert_eq!(answer(&page, 0, 4096, 1040), Error::OutsideMemory);
        assert_eq!(answer(&page, 0, 6, 1040), Error::NothingThere);
        assert!(record.iter().all(|&byte| byte == 0xA5));
    }
}
