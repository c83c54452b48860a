//! The block cache: one store of bytes, owned or lent, and the calls on it.
use crate::{Block, Error, Reading, door, form, form_into};
use std::ops::{Deref, DerefMut};

/// A block cache in one buffer of bytes: a `Box` of its own by default, or whatever the caller has, as a `&mut [u8]`.
///
/// The bytes are a store from the start on, and nothing but the calls changes them, which are proved to leave a store. So calls that are
/// refused only where there is no store give plain answers here. The methods with the original's names take and give what the original's do.
#[derive(Clone, Debug)]
pub struct Store<B = Box<[u8]>> {
    bytes: B,
}

/// What a notice, a list of them or a guest write did.
#[derive(Clone, Copy, Debug, Default, PartialEq, Eq)]
pub struct Report {
    /// Slots that were looked at: all of them for each page that may have had blocks.
    pub examined: u64,
    /// Blocks that were dropped: above 0 where a lookup in the pages written would have hit just before.
    pub dropped: u64,
}

/// What both did.
impl std::ops::Add for Report {
    type Output = Self;

    fn add(self, other: Self) -> Self {
        Self {
            examined: self.examined + other.examined,
            dropped: self.dropped + other.dropped,
        }
    }
}

/// The original's cache: a [`Store`] in memory of its own, in the Rust reading, with the methods of a [`Store`] that borrow it. Whoever wants the
/// manual's reading, or the bytes back, makes a [`Store`].
#[derive(Clone, Debug)]
pub struct BlockCache(Store);

impl BlockCache {
    /// A new cache: 2^e slots, over a memory of so many pages from the base on. [`Error::Geometry`] outside the bounds.
    pub fn new(e: u64, base: u64, pages: u64) -> Result<Self, Error> {
        Store::new(Reading::Rust, e, base, pages).map(Self)
    }
}

impl Deref for BlockCache {
    type Target = Store;

    #[inline]
    fn deref(&self) -> &Store {
        &self.0
    }
}

impl DerefMut for BlockCache {
    #[inline]
    fn deref_mut(&mut self) -> &mut Store {
        &mut self.0
    }
}

const KEPT: &str = "a store is proved to stay one";

/// Where the header has the reading, the base and the page count.
const READING_AT: usize = 3;
const BASE_AT: usize = 8;
const PAGES_AT: usize = 16;

/// The length of a store with 2^e slots over a memory of so many pages, or none outside the bounds.
pub fn store_len(e: u64, pages: u64) -> Option<usize> {
    (e <= 14 && (1..=65_536).contains(&pages))
        .then(|| 32 + pages.div_ceil(64) as usize * 8 + (Block::LEN << e))
}

impl Store {
    /// A new store in memory of its own, for blocks in a reading: 2^e slots, over a memory of so many pages from the base on. [`Error::Geometry`]
    /// outside the bounds.
    pub fn new(reading: Reading, e: u64, base: u64, pages: u64) -> Result<Self, Error> {
        // Outside the bounds no length is right, and the call says so.
        let len = store_len(e, pages).unwrap_or(0);
        Self::make(vec![0; len].into_boxed_slice(), reading, e, base, pages)
    }
}

impl<B: AsRef<[u8]> + AsMut<[u8]>> Store<B> {
    /// A new store in the caller's bytes, whatever they hold. [`Error::NoStore`] where their number is not [`store_len`]'s.
    pub fn make(
        mut bytes: B,
        reading: Reading,
        e: u64,
        base: u64,
        pages: u64,
    ) -> Result<Self, Error> {
        let lent = bytes.as_mut();
        let (at, len) = (lent.as_mut_ptr(), lent.len());
        // SAFETY: here and below, a pointer and a length are those of one slice, lent for the call, and alone where it is lent to be written.
        Error::check(unsafe { door::uv_make(at, len, reading.number(), e, base, pages) })?;
        Ok(Self { bytes })
    }

    /// The store that the caller's bytes are. [`Error::NoStore`] where their length or header is not a store's; nothing else is judged.
    pub fn open(bytes: B) -> Result<Self, Error> {
        let store = Self { bytes };
        store.generation()?;
        Ok(store)
    }

    /// The store's bytes.
    pub fn as_bytes(&self) -> &[u8] {
        self.bytes.as_ref()
    }

    /// The store's bytes, given back.
    pub fn into_bytes(self) -> B {
        self.bytes
    }

    /// The reading that the store was made for.
    #[inline]
    pub fn reading(&self) -> Reading {
        Reading::ALL[usize::from(self.bytes.as_ref()[READING_AT])]
    }

    /// Forms the block at an address of the store's memory, in the store's reading: what is right to be kept here. As [`form`], and
    /// [`Error::Geometry`] where the memory is not as long as the store's.
    pub fn form(&self, memory: &[u8], address: u64) -> Result<Block, Error> {
        form(self.reading(), memory, self.base_of(memory)?, address)
    }

    /// [`Store::form`] into the caller's record of 1,040 bytes, which an error leaves as it was.
    #[inline]
    pub fn form_into(&self, memory: &[u8], address: u64, record: &mut [u8]) -> Result<(), Error> {
        let base = self.base_of(memory)?;
        form_into(self.reading(), memory, base, address, record)
    }

    /// The base of the store's memory, given its bytes.
    #[inline]
    fn base_of(&self, memory: &[u8]) -> Result<u64, Error> {
        let header = self.bytes.as_ref();
        let number = |at| u64::from_le_bytes(header[at..at + 8].try_into().expect("eight bytes"));
        if memory.len() as u64 == 4096 * number(PAGES_AT) {
            Ok(number(BASE_AT))
        } else {
            Err(Error::Geometry)
        }
    }

    /// The block record at an address: its 1,040 bytes within the store. [`Error::Miss`] where the cache has none.
    #[inline]
    pub fn find(&self, address: u64) -> Result<&[u8], Error> {
        let bytes = self.bytes.as_ref();
        // SAFETY: as in `make`.
        let at = unsafe { door::uv_lookup(bytes.as_ptr(), bytes.len(), address) }.checked()?;
        Ok(&bytes[at as usize..][..Block::LEN])
    }

    /// Keeps a block record for its address. [`Error::OutsideMemory`], [`Error::IllFormed`] or [`Error::RecordLength`] where it is none.
    #[inline]
    pub fn put(&mut self, address: u64, record: &[u8]) -> Result<(), Error> {
        let bytes = self.bytes.as_mut();
        // SAFETY: as in `make`.
        Error::check(unsafe {
            door::uv_insert(
                bytes.as_mut_ptr(),
                bytes.len(),
                address,
                record.as_ptr(),
                record.len(),
            )
        })
    }

    /// Drops the blocks of the address's page, to be told after a write there and before the next lookup. Slots are examined only where the page has
    /// had an insertion since its last notice, guest write or flush.
    #[inline]
    pub fn notice(&mut self, address: u64) -> Report {
        let bytes = self.bytes.as_mut();
        // SAFETY: as in `make`.
        unsafe { door::uv_notice(bytes.as_mut_ptr(), bytes.len(), address) }
            .checked()
            .expect(KEPT)
    }

    /// Drops the blocks of the addresses' pages, as [`Store::notice`] of one address after the other, and reports the sums; the header is checked once
    /// for all. To be told after the writes and before the next lookup, with an address in each page that they touched. Order and repeats change
    /// nothing, and an empty list does nothing.
    ///
    /// ```
    /// use unvriscol::{Error, Reading, Report, Store};
    ///
    /// let memory = [0x01, 0x00].repeat(4096); // two pages of c.nop
    /// let mut blocks = Store::new(Reading::Rust, 2, 0, 2)?; // 4 slots
    /// for address in [0, 4098] {
    ///     blocks.insert(address, blocks.form(&memory, address)?);
    /// }
    /// let mut singly = blocks.clone();
    ///
    /// // Both pages, one of them twice, and an address outside memory.
    /// let report = blocks.notice_all(&[8191, 0, 8192, 4096]);
    /// assert_eq!(report, Report { examined: 8, dropped: 2 });
    ///
    /// assert_eq!(report, singly.notice(0) + singly.notice(4096));
    /// assert_eq!(blocks.as_bytes(), singly.as_bytes());
    /// # Ok::<(), Error>(())
    /// ```
    #[inline]
    pub fn notice_all(&mut self, addresses: &[u64]) -> Report {
        let bytes = self.bytes.as_mut();
        let (at, len) = (bytes.as_mut_ptr(), bytes.len());
        // SAFETY: as in `make`; a slice's numbers are aligned.
        unsafe { door::uv_notices(at, len, addresses.as_ptr(), addresses.len()) }
            .checked()
            .expect(KEPT)
    }

    /// Writes the low bytes of a value to the guest's memory, 1, 2, 4 or 8 of them, and drops the blocks of each page that it touches, which it reports
    /// together. [`Error::Geometry`] where the memory is not as long as the store's, [`Error::WriteSize`], [`Error::OutsideMemory`].
    #[inline]
    pub fn guest_write(
        &mut self,
        memory: &mut [u8],
        address: u64,
        size: u64,
        value: u64,
    ) -> Result<Report, Error> {
        let bytes = self.bytes.as_mut();
        // SAFETY: as in `make`.
        unsafe {
            door::uv_guest_write(
                bytes.as_mut_ptr(),
                bytes.len(),
                memory.as_mut_ptr(),
                memory.len(),
                address,
                size,
                value,
            )
        }
        .checked()
    }

    fn generation(&self) -> Result<u64, Error> {
        let bytes = self.bytes.as_ref();
        // SAFETY: as in `make`.
        unsafe { door::uv_generation(bytes.as_ptr(), bytes.len()) }.checked()
    }
}

/// The original's methods.
impl<B: AsRef<[u8]> + AsMut<[u8]>> Store<B> {
    /// The block at an address, if the cache has it: a copy of what [`Store::find`] finds. Where [`Block::from_record`] gives none, as only bytes that
    /// were opened can have it, neither does this.
    #[inline]
    pub fn lookup(&self, physical_address: u64) -> Option<Block> {
        Block::from_record(self.find(physical_address).ok()?)
    }

    /// Keeps a block for an address, and hands it back to be run. One that [`Store::put`] refuses, as outside memory, is not kept.
    pub fn insert(&mut self, physical_address: u64, block: Block) -> Block {
        let _ = self.put(physical_address, &block.to_record(physical_address));
        block
    }

    /// [`Store::notice`], with no answer.
    #[inline]
    pub fn notify_store(&mut self, physical_address: u64) {
        self.notice(physical_address);
    }

    /// Empties the cache.
    pub fn flush_all(&mut self) {
        let bytes = self.bytes.as_mut();
        // SAFETY: as in `make`.
        Error::check(unsafe { door::uv_flush(bytes.as_mut_ptr(), bytes.len()) }).expect(KEPT);
    }

    /// One more than the insertions so far.
    #[inline]
    pub fn code_generation(&self) -> u64 {
        self.generation().expect(KEPT)
    }
}

#[cfg(test)]
mod tests {
    use super::*;
    use crate::{AluKind, GuestMemory, Op, decode_block, decode_halfword, decode_word};

    const BASE: u64 = 0x8000_0000;

    /// Two pages, each with addi a0, zero, 1 and ret at its start.
    fn memory() -> Vec<u8> {
        let mut memory = vec![0; 8192];
        for page in memory.chunks_exact_mut(4096) {
            page[..6].copy_from_slice(&[0x13, 0x05, 0x10, 0x00, 0x82, 0x80]);
        }
        memory
    }

    /// The core's loop on a miss, with the original's names alone.
    fn step<M: GuestMemory, B: AsRef<[u8]> + AsMut<[u8]>>(
        blocks: &mut Store<B>,
        bus: &mut M,
        address: u64,
    ) -> Option<u32> {
        if let Some(cached) = blocks.lookup(address) {
            return Some(cached.byte_len);
        }
        if let Some(decoded) = decode_block(blocks.reading(), bus, address) {
            let cached = blocks.insert(address, decoded);
            return Some(cached.byte_len);
        }
        None
    }

    #[test]
    fn a_block_until_its_page_is_written() {
        let mut memory = memory();
        let mut store = BlockCache::new(2, BASE, 2).unwrap();
        assert_eq!(store.as_bytes().len(), 4200);
        for at in [BASE, BASE + 4100] {
            step(&mut store, &mut (&memory[..], BASE), at);
        }
        assert_eq!(store.lookup(BASE), store.form(&memory, BASE).ok());
        assert_eq!(store.find(BASE).unwrap().len(), Block::LEN);
        assert_eq!(store.code_generation(), 3);
        // c.li a0, 2 and ret
        let written = store.guest_write(&mut memory, BASE, 4, 0x8082_4509);
        let report = |examined, dropped| Report { examined, dropped };
        assert_eq!(written, Ok(report(4, 1)));
        assert_eq!(store.lookup(BASE), None);
        assert!(store.lookup(BASE + 4100).is_some());
        assert_eq!(step(&mut store, &mut (&memory[..], BASE), BASE), Some(4));
        assert_eq!(store.notice(BASE + 4097), report(4, 1));
        assert_eq!(store.notice(BASE + 4097), Report::default());
        store.flush_all();
        assert_eq!(store.find(BASE), Err(Error::Miss));
        assert_eq!(store.code_generation(), 4);
    }

    #[test]
    fn a_list_is_its_notices() {
        let memory = memory();
        let mut store = BlockCache::new(2, BASE, 2).unwrap();
        for at in [BASE, BASE + 4100] {
            step(&mut store, &mut (&memory[..], BASE), at);
        }
        let lists: [&[u64]; 5] = [
            &[],
            &[BASE],
            &[BASE + 4096],
            &[BASE + 8192, BASE + 1, BASE],
            &[BASE + 8191, 0, BASE, u64::MAX, BASE + 4096, BASE + 8191],
        ];
        for list in lists {
            let (mut listed, mut singly) = (store.clone(), store.clone());
            let report = listed.notice_all(list);
            let each = list.iter().map(|&address| singly.notice(address));
            let sum = each.fold(Report::default(), std::ops::Add::add);
            assert_eq!(report, sum, "{list:x?}");
            assert_eq!(listed.as_bytes(), singly.as_bytes(), "{list:x?}");
        }
    }

    #[test]
    fn lent_bytes() {
        let mut bytes = vec![0xA5; 4200];
        let mut store = Store::make(&mut bytes[..], Reading::Manual, 2, BASE, 2).unwrap();
        step(&mut store, &mut (&memory()[..], BASE), BASE);
        let mut again = Store::open(bytes).unwrap();
        assert_eq!(again.reading(), Reading::Manual);
        assert!(again.lookup(BASE).is_some());
        again.notify_store(BASE);
        assert!(again.lookup(BASE).is_none());
    }

    #[test]
    fn refusals() {
        let refused = |e, base, pages| Store::new(Reading::Rust, e, base, pages).unwrap_err();
        assert_eq!(refused(15, 0, 1), Error::Geometry);
        assert_eq!(refused(2, 0, 65_537), Error::Geometry);
        assert_eq!(refused(2, 1, 1), Error::Geometry);
        assert_eq!(
            Store::make(vec![0; 4199], Reading::Rust, 2, 0, 1).unwrap_err(),
            Error::NoStore
        );
        assert_eq!(Store::open(vec![0; 4200]).unwrap_err(), Error::NoStore);
        let mut store = Store::new(Reading::Rust, 2, BASE, 2).unwrap();
        let block = store.form(&memory(), BASE).unwrap();
        assert_eq!(store.form(&memory()[4096..], BASE), Err(Error::Geometry));
        let record = block.to_record(BASE);
        assert_eq!(store.put(BASE - 4096, &record), Err(Error::OutsideMemory));
        assert_eq!(store.put(BASE + 2, &record), Err(Error::IllFormed));
        assert_eq!(store.put(BASE, &record[1..]), Err(Error::RecordLength));
        assert_eq!(
            store.guest_write(&mut [0; 4096], BASE, 8, 0),
            Err(Error::Geometry)
        );
        assert_eq!(
            store.guest_write(&mut memory(), BASE, 3, 0),
            Err(Error::WriteSize)
        );
        assert_eq!(
            store.guest_write(&mut memory(), BASE + 8185, 8, 0),
            Err(Error::OutsideMemory)
        );
        // Handed back, and not kept.
        assert_eq!(store.insert(0, block.clone()), block);
        assert_eq!(store.code_generation(), 1);
    }

    /// One block for each reading, and a store that knows its own.
    #[test]
    fn readings() {
        let minu = 0x0AC5_D533_u32;
        let mut memory = memory();
        memory[..4].copy_from_slice(&minu.to_le_bytes());
        for (reading, kind) in Reading::ALL.into_iter().zip([AluKind::Max, AluKind::Minu]) {
            let op = Op::AluReg {
                kind,
                rd: 10,
                rs1: 11,
                rs2: 12,
            };
            assert_eq!(decode_word(reading, minu).unwrap().op, op);
            let mut store = Store::new(reading, 2, BASE, 2).unwrap();
            assert_eq!(store.reading(), reading);
            assert_eq!(u64::from(store.as_bytes()[READING_AT]), reading.number());
            let block = store.form(&memory, BASE).unwrap();
            assert_eq!(block.ops.iter().next().unwrap().op, op);
            store.insert(BASE, block.clone());
            assert_eq!(store.lookup(BASE), Some(block));
        }
        // C.LWSP with rd 0 is reserved.
        assert!(decode_halfword(Reading::Rust, 0x4002).is_ok());
        let reserved = decode_halfword(Reading::Manual, 0x4002);
        assert_eq!(reserved, Err(Error::NothingThere));
    }

    #[test]
    fn no_other_reading() {
        let mut bytes = Store::new(Reading::Manual, 2, BASE, 2)
            .unwrap()
            .into_bytes();
        for byte in [2, 3, 0x81, 255] {
            bytes[READING_AT] = byte;
            assert_eq!(Store::open(&mut bytes[..]).unwrap_err(), Error::NoStore);
        }
        bytes[READING_AT] = 0;
        assert_eq!(Store::open(bytes).unwrap().reading(), Reading::Rust);
    }

    #[test]
    fn lengths() {
        assert_eq!(store_len(2, 1), Some(4200));
        assert_eq!(store_len(14, 65_536), Some(17_047_584));
        assert_eq!(store_len(15, 1), None);
        assert_eq!(store_len(0, 0), None);
    }
}
