//! The cache calls as plain code, to be read beside docs/FORMATS.md, "Bounds", "Well-formed records", "The store" and "What the calls do".
//! A call gives `Ok` with its value (0 where it has none) or `Err` with the number.
use std::ops::Range;

pub const PAGE: u64 = 4096;
pub const OP: usize = 16;
pub const RECORD: usize = 1040;

type Answer = Result<u64, u64>;

/// What a notice, a list of them or a guest write did: the slots examined and the places emptied.
#[derive(Clone, Copy, Default)]
pub struct Report {
    pub examined: u64,
    pub dropped: u64,
}

impl std::ops::AddAssign for Report {
    fn add_assign(&mut self, other: Self) {
        self.examined += other.examined;
        self.dropped += other.dropped;
    }
}

/// What a store's header says: the reading, the exponent of the slot count, the memory's base and its pages.
#[derive(Clone, Copy, Debug)]
pub struct Shape {
    pub reading: u64,
    pub e: u64,
    pub base: u64,
    pub pages: u64,
}

impl Shape {
    pub fn in_bounds(self) -> bool {
        let Self {
            reading,
            e,
            base,
            pages,
        } = self;
        let end = pages
            .checked_mul(PAGE)
            .and_then(|len| base.checked_add(len));
        reading <= 1
            && e <= 14
            && (1..=65_536).contains(&pages)
            && base % PAGE == 0
            && end.is_some_and(|end| end <= 1 << 56)
    }

    pub fn slots(self) -> u64 {
        1 << self.e
    }

    /// Where the places begin: behind the header of 32 bytes and the bitmap, 8 bytes per begun 64 pages.
    fn front(self) -> usize {
        32 + 8 * self.pages.div_ceil(64) as usize
    }

    pub fn store_len(self) -> usize {
        self.front() + RECORD * self.slots() as usize
    }

    pub fn holds(self, address: u64) -> bool {
        address >= self.base && address - self.base < self.pages * PAGE
    }

    pub fn place(self, slot: u64) -> Range<usize> {
        let from = self.front() + RECORD * slot as usize;
        from..from + RECORD
    }

    /// The place of an address's slot, (a / 2) mod 2^e.
    pub fn place_of(self, address: u64) -> Range<usize> {
        self.place(address / 2 % self.slots())
    }

    /// Byte and mask of the bit of an address's page.
    fn bit(self, address: u64) -> (usize, u8) {
        let page = (address - self.base) / PAGE;
        (32 + page as usize / 8, 1 << (page % 8))
    }

    /// Whether an address lies in memory, on a page whose bit is set.
    fn watched(self, store: &[u8], address: u64) -> bool {
        self.holds(address) && {
            let (byte, mask) = self.bit(address);
            store[byte] & mask != 0
        }
    }

    /// The places whose address lies in the page of another address.
    fn in_page(self, store: &[u8], address: u64) -> Vec<Range<usize>> {
        let places = (0..self.slots()).map(|slot| self.place(slot));
        places
            .filter(|place| number(store, place.start) / PAGE == address / PAGE)
            .collect()
    }

    fn header(self, generation: u64) -> [u8; 32] {
        let mut header = [0; 32];
        let reading = self.reading as u8;
        header[..8].copy_from_slice(&[b'V', b'B', b'C', reading, 1, 0, self.e as u8, 0]);
        header[8..16].copy_from_slice(&self.base.to_le_bytes());
        header[16..24].copy_from_slice(&self.pages.to_le_bytes());
        header[24..].copy_from_slice(&generation.to_le_bytes());
        header
    }
}

pub fn number(bytes: &[u8], at: usize) -> u64 {
    u64::from_le_bytes(bytes[at..at + 8].try_into().expect("eight bytes"))
}

/// Eight address bytes of 255 and zeros.
const EMPTY: [u8; RECORD] = {
    let mut place = [0; RECORD];
    let mut at = 0;
    while at < 8 {
        place[at] = 255;
        at += 1;
    }
    place
};

/// The header check.
pub fn opened(store: &[u8]) -> Result<Shape, u64> {
    if store.len() < 32 {
        return Err(1);
    }
    let shape = Shape {
        reading: store[3].into(),
        e: store[6].into(),
        base: number(store, 8),
        pages: number(store, 16),
    };
    let sound = shape.in_bounds()
        && store[..24] == shape.header(0)[..24]
        && store.len() == shape.store_len();
    if sound { Ok(shape) } else { Err(1) }
}

fn empty_all(store: &mut [u8], shape: Shape) {
    store[32..shape.front()].fill(0);
    for slot in 0..shape.slots() {
        store[shape.place(slot)].copy_from_slice(&EMPTY);
    }
}

pub fn make(store: &mut [u8], shape: Shape) -> Answer {
    if !shape.in_bounds() {
        return Err(2);
    }
    if store.len() != shape.store_len() {
        return Err(1);
    }
    store[..32].copy_from_slice(&shape.header(1));
    empty_all(store, shape);
    Ok(0)
}

/// The value is where in the store the record begins.
pub fn lookup(store: &[u8], address: u64) -> Answer {
    let shape = opened(store)?;
    let at = shape.place_of(address).start;
    if shape.holds(address) && number(store, at) == address {
        Ok(at as u64)
    } else {
        Err(9)
    }
}

pub fn insert(store: &mut [u8], address: u64, record: &[u8]) -> Answer {
    let shape = opened(store)?;
    if record.len() != RECORD {
        return Err(6);
    }
    if !shape.holds(address) {
        return Err(3);
    }
    if !well_formed(record, address) {
        return Err(5);
    }
    let (byte, mask) = shape.bit(address);
    store[byte] |= mask;
    let generation = number(store, 24).wrapping_add(1);
    store[24..32].copy_from_slice(&generation.to_le_bytes());
    store[shape.place_of(address)].copy_from_slice(record);
    Ok(0)
}

/// What a notice reports, by the store before it.
fn report(store: &[u8], shape: Shape, address: u64) -> Report {
    if shape.watched(store, address) {
        Report {
            examined: shape.slots(),
            dropped: shape.in_page(store, address).len() as u64,
        }
    } else {
        Report::default()
    }
}

fn evict(store: &mut [u8], shape: Shape, address: u64) {
    if shape.watched(store, address) {
        let (byte, mask) = shape.bit(address);
        store[byte] &= !mask;
        for place in shape.in_page(store, address) {
            store[place].copy_from_slice(&EMPTY);
        }
    }
}

pub fn notice(store: &mut [u8], address: u64) -> Result<Report, u64> {
    let shape = opened(store)?;
    let report = report(store, shape, address);
    evict(store, shape, address);
    Ok(report)
}

/// One notice after the other, each by the store that those before it left. The header is checked for an empty list too.
pub fn notices(store: &mut [u8], addresses: &[u64]) -> Result<Report, u64> {
    opened(store)?;
    let mut sum = Report::default();
    for &address in addresses {
        sum += notice(store, address)?;
    }
    Ok(sum)
}

pub fn flush(store: &mut [u8]) -> Answer {
    let shape = opened(store)?;
    empty_all(store, shape);
    Ok(0)
}

pub fn generation(store: &[u8]) -> Answer {
    opened(store)?;
    Ok(number(store, 24))
}

/// The sums over its pages, both by the store before the call.
pub fn guest_write(
    store: &mut [u8],
    memory: &mut [u8],
    address: u64,
    size: u64,
    value: u64,
) -> Result<Report, u64> {
    let shape = opened(store)?;
    if memory.len() as u64 != shape.pages * PAGE {
        return Err(2);
    }
    if ![1, 2, 4, 8].contains(&size) {
        return Err(8);
    }
    let Some(last) = address.checked_add(size - 1) else {
        return Err(3);
    };
    if !(shape.holds(address) && shape.holds(last)) {
        return Err(3);
    }
    let mut sum = report(store, shape, address);
    if last / PAGE != address / PAGE {
        sum += report(store, shape, last);
    }
    // The second does nothing where it is the same page.
    evict(store, shape, address);
    evict(store, shape, last);
    let at = (address - shape.base) as usize;
    memory[at..at + size as usize].copy_from_slice(&value.to_le_bytes()[..size as usize]);
    Ok(sum)
}

/// How many kinds an op number has, and whether it has rd, rs1, rs2 and an immediate (or raw).
pub const OPS: [(u8, [bool; 4]); 10] = [
    (1, [true, false, false, true]),  // Lui
    (1, [true, false, false, true]),  // Auipc
    (58, [true, true, false, true]),  // AluImm
    (58, [true, true, true, false]),  // AluReg
    (7, [true, true, false, true]),   // Load
    (4, [false, true, true, true]),   // Store
    (6, [false, true, true, true]),   // Branch
    (1, [true, false, false, true]),  // Jal
    (1, [true, true, false, true]),   // Jalr
    (1, [false, false, false, true]), // Fallback
];

fn op_well_formed(op: &[u8]) -> bool {
    let Some(&(kinds, [rd, rs1, rs2, imm])) = OPS.get(op[0] as usize) else {
        return false;
    };
    let register = |has: bool, register: u8| if has { register <= 31 } else { register == 0 };
    let fallback = op[0] == 9;
    op[1] < kinds
        && register(rd, op[2])
        && register(rs1, op[3])
        && register(rs2, op[4])
        && (op[5] == 4 || op[5] == 2 && !fallback)
        && (imm || number(op, 8) == 0)
        && (!fallback || number(op, 8) < 1 << 32)
}

/// Whether a record of 1,040 bytes is well formed for an address.
pub fn well_formed(record: &[u8], address: u64) -> bool {
    let half = |bytes: &[u8], at| u64::from(u16::from_le_bytes([bytes[at], bytes[at + 1]]));
    let (count, byte_len) = (half(record, 8) as usize, half(record, 10));
    if number(record, 0) != address || !(1..=64).contains(&count) || record[12..16] != [0; 4] {
        return false;
    }
    let (used, unused) = record[16..].split_at(count * OP);
    let mut offset = 0;
    for (at, op) in used.chunks_exact(OP).enumerate() {
        let jump = op[0] == 7 || op[0] == 8;
        if !op_well_formed(op) || half(op, 6) != offset || jump && at + 1 < count {
            return false;
        }
        offset += u64::from(op[5]);
    }
    byte_len == offset && address % PAGE + byte_len <= PAGE && unused.iter().all(|&byte| byte == 0)
}
