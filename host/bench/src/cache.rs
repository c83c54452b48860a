//! Forming and the cache: rows whose calls change something, so that each pass is made ready first.
use crate::work::{Calls, READ, Side, Target, Work};
use oracle::block::{self, Block, BlockCache};
use oracle::system_bus::FlatMemory;
use std::hint::black_box;
use unvriscol::{Reading, door};

const PAGE: usize = 4096;
const RECORD: usize = 1040;

/// An image in the original's own memory and in plain bytes, from address 0 on, with its blocks in each reading.
struct Image {
    bus: FlatMemory,
    bytes: Vec<u8>,
    walks: [Walk; 2],
}

/// The blocks of an image in one reading, in the order in which a hart would meet them.
#[derive(Default)]
struct Walk {
    starts: Vec<u64>,
    ops: usize,
}

impl Image {
    /// The image is repeated up to a power of two, of at least 64 pages: the original's memory has no other lengths.
    fn new(image: &[u8]) -> Self {
        let len = image.len().next_power_of_two().max(64 * PAGE);
        let bytes: Vec<u8> = image.iter().copied().cycle().take(len).collect();
        let mut bus = FlatMemory::new(len);
        bus.load_at(0, &bytes);
        let walks = Reading::ALL.map(|reading| {
            let (mut walk, mut at) = (Walk::default(), 0);
            while at + 1 < len as u64 {
                match unvriscol::form(reading, &bytes, 0, at) {
                    Ok(block) => {
                        walk.starts.push(at);
                        walk.ops += block.ops.len();
                        at += u64::from(block.byte_len);
                    }
                    Err(_) => at += 2,
                }
            }
            walk
        });
        Self { bus, bytes, walks }
    }

    fn walk(&self, reading: Reading) -> &Walk {
        &self.walks[reading as usize]
    }

    fn pages(&self) -> u64 {
        (self.bytes.len() / PAGE) as u64
    }

    fn form(&self, reading: Reading, address: u64, record: &mut [u8; RECORD]) -> u64 {
        // SAFETY: each pointer and length are those of one slice or array, lent for the call.
        unsafe {
            door::uv_form(
                reading.number(),
                self.bytes.as_ptr(),
                self.bytes.len(),
                0,
                address,
                record.as_mut_ptr(),
                RECORD,
            )
        }
    }
}

/// Forming, per op.
struct Form(Image);

impl Calls for Form {
    fn len(&self, side: Side) -> usize {
        self.0.walk(side.reading()).ops
    }

    fn pass(&mut self, side: Side) -> u64 {
        let mut formed = 0;
        let mut record = [0; RECORD];
        let reading = side.reading();
        for at in 0..self.0.walk(reading).starts.len() {
            let address = self.0.walk(reading).starts[at];
            formed += match side {
                Side::Rust => {
                    u64::from(black_box(block::decode_block(&mut self.0.bus, address)).is_some())
                }
                _ => u64::from(self.0.form(reading, address, black_box(&mut record)) == 0),
            };
        }
        formed
    }
}

/// What is done to a cache in a pass.
#[derive(Clone, Copy, PartialEq)]
enum Deed {
    Insert,
    Hit,
    Miss,
    /// Of pages that are marked or not, with a call for each address or one for a list of them.
    Notice {
        marked: bool,
        listed: bool,
    },
    Flush,
    Make,
}

const NOTICE_UNMARKED: Deed = Deed::Notice {
    marked: false,
    listed: false,
};
const NOTICE_MARKED: Deed = Deed::Notice {
    marked: true,
    listed: false,
};
const LIST_UNMARKED: Deed = Deed::Notice {
    marked: false,
    listed: true,
};
const LIST_MARKED: Deed = Deed::Notice {
    marked: true,
    listed: true,
};

/// Blocks of an image with a cache on each side: the original's, and ours with 2^e slots.
struct Cache {
    deed: Deed,
    e: u64,
    pages: u64,
    /// Where the calls are made, and the records of the blocks there.
    addresses: Vec<u64>,
    records: Vec<[u8; RECORD]>,
    image: Image,
    rust: BlockCache,
    /// Formed anew for each pass, since an insertion takes a block.
    blocks: Vec<Block>,
    store: Vec<u8>,
}

impl Cache {
    /// Few enough that their records stay near.
    const BLOCKS: usize = 256;
    /// How many addresses a list has, and how many lists of unmarked pages a pass: one is too short for the clock.
    const LIST: usize = 64;
    const LISTS: usize = 64;

    fn new(deed: Deed, e: u64, image: &[u8]) -> Self {
        let image = Image::new(image);
        let mut slots = vec![false; 1 << e];
        let mut pages = vec![false; image.pages() as usize];
        let addresses: Vec<u64> = image
            .walk(Reading::Rust)
            .starts
            .iter()
            .copied()
            .filter(|&start| match deed {
                // One block to a page.
                NOTICE_MARKED | LIST_UNMARKED | LIST_MARKED => {
                    !std::mem::replace(&mut pages[start as usize / PAGE], true)
                }
                // One block to a slot; the image's first half, so that what is missed has the same slot in the second.
                _ => {
                    start < image.bytes.len() as u64 / 2
                        && !std::mem::replace(&mut slots[start as usize / 2 % (1 << e)], true)
                }
            })
            .take(match deed {
                Deed::Notice { listed: true, .. } => Self::LIST,
                _ => Self::BLOCKS,
            })
            .collect();
        let records = addresses
            .iter()
            .map(|&address| {
                let mut record = [0; RECORD];
                image.form(Reading::Rust, address, &mut record);
                record
            })
            .collect();
        let pages = image.pages();
        let store = vec![0; unvriscol::store_len(e, pages).expect("within the bounds")];
        let mut cache = Self {
            deed,
            e,
            pages,
            addresses,
            records,
            image,
            rust: BlockCache::new(),
            blocks: Vec::new(),
            store,
        };
        cache.make();
        cache
    }

    fn make(&mut self) -> u64 {
        // SAFETY: pointer and length of one buffer, lent for the call; so below.
        unsafe {
            door::uv_make(
                self.store.as_mut_ptr(),
                self.store.len(),
                Reading::Rust.number(),
                self.e,
                0,
                self.pages,
            )
        }
    }

    fn insert_all(&mut self) -> u64 {
        let mut sum = 0;
        for (address, record) in self.addresses.iter().zip(&self.records) {
            sum += unsafe {
                door::uv_insert(
                    self.store.as_mut_ptr(),
                    self.store.len(),
                    *address,
                    record.as_ptr(),
                    RECORD,
                )
            };
        }
        sum
    }

    fn rust_insert_all(&mut self) -> u64 {
        let mut sum = 0;
        for (&address, block) in self.addresses.iter().zip(self.blocks.drain(..)) {
            sum += u64::from(rust_insert(&mut self.rust, address, block).byte_len);
        }
        sum
    }

    fn form_all(&mut self) {
        for &address in &self.addresses {
            self.blocks
                .extend(block::decode_block(&mut self.image.bus, address));
        }
    }

    /// How often a pass goes over the addresses.
    fn times(&self) -> usize {
        match self.deed {
            LIST_UNMARKED => Self::LISTS,
            _ => 1,
        }
    }

    fn notice_each(&mut self) -> u64 {
        let (at, len) = (self.store.as_mut_ptr(), self.store.len());
        self.addresses
            .iter()
            .map(|&address| unsafe { door::uv_notice(at, len, address) }.dropped)
            .sum()
    }

    fn notice_list(&mut self) -> u64 {
        let (at, len) = (self.store.as_mut_ptr(), self.store.len());
        let list = &self.addresses;
        unsafe { door::uv_notices(at, len, list.as_ptr(), list.len()) }.dropped
    }

    /// The addresses of the deed.
    fn asked(&self) -> impl Iterator<Item = u64> + use<'_> {
        let aside = match self.deed {
            Deed::Miss => self.image.bytes.len() as u64 / 2,
            _ => 0,
        };
        self.addresses.iter().map(move |address| address + aside)
    }
}

// The original inlines these; ours are C functions.
#[inline(never)]
fn rust_insert(cache: &mut BlockCache, address: u64, block: Block) -> std::sync::Arc<Block> {
    cache.insert(address, block)
}

#[inline(never)]
fn rust_lookup(cache: &BlockCache, address: u64) -> Option<std::sync::Arc<Block>> {
    cache.lookup(address)
}

#[inline(never)]
fn rust_notice(cache: &mut BlockCache, address: u64) {
    cache.notify_store(address);
}

impl Calls for Cache {
    fn len(&self, _: Side) -> usize {
        match self.deed {
            Deed::Flush | Deed::Make => 1,
            _ => self.addresses.len() * self.times(),
        }
    }

    fn prepare(&mut self, side: Side) {
        match (self.deed, side) {
            (Deed::Insert, Side::Rust) => self.form_all(),
            (Deed::Insert | NOTICE_UNMARKED | LIST_UNMARKED | Deed::Make, _) => {}
            (_, Side::Rust) => {
                self.form_all();
                self.rust_insert_all();
            }
            _ => {
                self.insert_all();
            }
        }
    }

    fn pass(&mut self, side: Side) -> u64 {
        match (self.deed, side) {
            (Deed::Insert, Side::Rust) => self.rust_insert_all(),
            (Deed::Insert, _) => self.insert_all(),
            (Deed::Hit | Deed::Miss, Side::Rust) => self
                .asked()
                .map(|address| u64::from(black_box(rust_lookup(&self.rust, address)).is_some()))
                .sum(),
            (Deed::Hit | Deed::Miss, _) => self
                .asked()
                .map(|address| {
                    let (at, len) = (self.store.as_ptr(), self.store.len());
                    black_box(unsafe { door::uv_lookup(at, len, address) }).value
                })
                .sum(),
            (Deed::Notice { .. }, Side::Rust) => {
                for _ in 0..self.times() {
                    for &address in &self.addresses {
                        rust_notice(&mut self.rust, address);
                    }
                }
                0
            }
            // One load per place at the places' stride.
            (Deed::Notice { .. }, Side::Floor) => {
                let front = self.store.len() - (RECORD << self.e);
                (0..self.addresses.len())
                    .map(|_| {
                        black_box(&self.store[front..])
                            .chunks_exact(RECORD)
                            .map(|place| u64::from_le_bytes(*place.first_chunk().expect("eight")))
                            .fold(0, u64::wrapping_add)
                    })
                    .fold(0, u64::wrapping_add)
            }
            (Deed::Notice { listed: true, .. }, Side::Ours) => {
                (0..self.times()).map(|_| self.notice_list()).sum()
            }
            (Deed::Notice { .. }, _) => (0..self.times()).map(|_| self.notice_each()).sum(),
            (Deed::Flush, Side::Rust) => {
                self.rust.flush_all();
                0
            }
            (Deed::Make, Side::Rust) => {
                self.rust = BlockCache::new();
                0
            }
            (Deed::Flush | Deed::Make, Side::Floor) => {
                black_box(&mut self.store[..]).fill(0);
                0
            }
            (Deed::Flush, _) => unsafe {
                door::uv_flush(self.store.as_mut_ptr(), self.store.len())
            },
            (Deed::Make, _) => self.make(),
        }
    }

    /// The next pass finds a store again.
    fn tidy(&mut self, side: Side) {
        if matches!((self.deed, side), (Deed::Flush | Deed::Make, Side::Floor)) {
            self.make();
        }
    }
}

const RUST: &[Side] = &[Side::Rust, Side::Ours];
const FLOOR: &[Side] = &[Side::Rust, Side::Floor, Side::Ours];
const LIST: &[Side] = &[Side::Rust, Side::Ours, Side::Singly];

/// The rows of forming, and of the cache at the original's slot count and a smaller one.
pub fn rows(image: &[u8]) -> Vec<Work> {
    let mut rows = vec![Work {
        name: "form, per op".into(),
        sides: READ,
        target: Some(Target {
            over: Side::Rust,
            most: 0.7,
        }),
        calls: Box::new(Form(Image::new(image))),
    }];
    let rust = |most| {
        Some(Target {
            over: Side::Rust,
            most,
        })
    };
    let floor = Some(Target {
        over: Side::Floor,
        most: 1.3,
    });
    let half = Some(Target {
        over: Side::Singly,
        most: 0.5,
    });
    for e in [14, 8] {
        for (name, deed, sides, target) in [
            ("insert a formed block", Deed::Insert, RUST, rust(1.0)),
            ("lookup, a hit", Deed::Hit, RUST, rust(0.6)),
            ("lookup, a miss", Deed::Miss, RUST, None),
            ("notice, page unmarked", NOTICE_UNMARKED, RUST, None),
            ("notice, page marked", NOTICE_MARKED, FLOOR, floor),
            ("list of 64, pages unmarked", LIST_UNMARKED, LIST, half),
            ("list of 64, pages marked", LIST_MARKED, LIST, None),
            ("flush", Deed::Flush, FLOOR, floor),
            ("make", Deed::Make, FLOOR, floor),
        ] {
            rows.push(Work {
                name: format!("{name}, e = {e}"),
                sides,
                target,
                calls: Box::new(Cache::new(deed, e, image)),
            });
        }
    }
    rows
}
