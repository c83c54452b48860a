//! What is timed: a row of calls of one kind, on each side.
use crate::cache;
use oracle::block::{self, AluKind};
use oracle::made;
use oracle::random::Random;
use std::hint::black_box;
use unvriscol::Reading;
use unvriscol::door::{uv_alu, uv_decode_halfword, uv_decode_word};

#[derive(Clone, Copy, PartialEq)]
pub enum Side {
    Rust,
    /// The least that the work can cost: the loads or the stores that it must make.
    Floor,
    Ours,
    /// Ours, in the manual's reading.
    Manual,
    /// Ours, with a call for each address of a list.
    Singly,
}

impl Side {
    pub const COUNT: usize = 5;
    pub const ALL: [Self; Self::COUNT] = [
        Self::Rust,
        Self::Floor,
        Self::Ours,
        Self::Manual,
        Self::Singly,
    ];

    /// The reading of our calls.
    pub fn reading(self) -> Reading {
        match self {
            Self::Manual => Reading::Manual,
            _ => Reading::Rust,
        }
    }
}

/// The most that ours may take, over another side.
#[derive(Clone, Copy)]
pub struct Target {
    pub over: Side,
    pub most: f64,
}

/// The calls of a row.
pub trait Calls {
    /// How many a pass makes.
    fn len(&self, side: Side) -> usize;
    /// What a pass needs beforehand, which is not measured.
    fn prepare(&mut self, _: Side) {}
    /// Makes every call once.
    fn pass(&mut self, side: Side) -> u64;
    /// What is to be done afterwards, which is not measured.
    fn tidy(&mut self, _: Side) {}
}

pub struct Work {
    pub name: String,
    pub sides: &'static [Side],
    pub target: Option<Target>,
    pub calls: Box<dyn Calls>,
}

const BOTH: &[Side] = &[Side::Rust, Side::Ours];

/// The sides of a row that has a reading.
pub const READ: &[Side] = &[Side::Rust, Side::Ours, Side::Manual];

struct Words(Vec<u32>);

impl Calls for Words {
    fn len(&self, _: Side) -> usize {
        self.0.len()
    }
    fn pass(&mut self, side: Side) -> u64 {
        match side {
            Side::Rust => decoded(&self.0, block::WORD),
            _ => recorded(&self.0, side, uv_decode_word),
        }
    }
}

struct Halfwords(Vec<u16>);

impl Calls for Halfwords {
    fn len(&self, _: Side) -> usize {
        self.0.len()
    }
    fn pass(&mut self, side: Side) -> u64 {
        match side {
            Side::Rust => decoded(&self.0, block::HALFWORD),
            _ => recorded(&self.0, side, uv_decode_halfword),
        }
    }
}

struct Alu(Vec<(AluKind, u64, u64)>);

impl Calls for Alu {
    fn len(&self, _: Side) -> usize {
        self.0.len()
    }
    fn pass(&mut self, side: Side) -> u64 {
        match side {
            Side::Rust => sum(&self.0, block::computed),
            _ => sum(&self.0, |kind, lhs, rhs| {
                let answer = uv_alu(kind as u64, lhs, rhs);
                answer.number + answer.value
            }),
        }
    }
}

#[inline(always)]
fn decoded<C: Copy>(calls: &[C], original: fn(C) -> Option<block::Op>) -> u64 {
    let mut ops = 0;
    for &raw in calls {
        let answer = original(raw);
        black_box(&answer);
        ops += u64::from(answer.is_some());
    }
    ops
}

#[inline(always)]
fn recorded<C: Copy>(
    calls: &[C],
    side: Side,
    ours: unsafe extern "C" fn(u64, C, *mut u8, usize) -> u64,
) -> u64 {
    let reading = side.reading().number();
    let mut ops = 0;
    let mut record = [0; 16];
    for &raw in calls {
        // SAFETY: pointer and length of one array, lent for the call.
        let number = unsafe { ours(reading, raw, record.as_mut_ptr(), record.len()) };
        black_box(&record);
        ops += u64::from(number == 0);
    }
    ops
}

#[inline(always)]
fn sum(calls: &[(AluKind, u64, u64)], side: impl Fn(AluKind, u64, u64) -> u64) -> u64 {
    calls.iter().fold(0, |sum, &(kind, lhs, rhs)| {
        black_box(sum ^ side(kind, lhs, rhs))
    })
}

const CALLS: usize = 1 << 16;

fn groups() -> Vec<(&'static str, Vec<AluKind>)> {
    use AluKind::*;
    let mut groups = vec![
        (
            "ALU: sums and logic",
            vec![Add, Sub, Xor, Or, And, Andn, Orn, Xnor],
        ),
        ("ALU: shifts", vec![Sll, Srl, Sra, Sllw, Srlw, Sraw]),
        ("ALU: word sums", vec![Addw, Subw]),
        ("ALU: comparisons", vec![Slt, Sltu, Min, Max, Minu, Maxu]),
        ("ALU: rotations", vec![Rol, Ror, Rolw, Rorw]),
        ("ALU: counts", vec![Clz, Ctz, Cpop, Clzw, Ctzw, Cpopw]),
        ("ALU: extensions", vec![SextB, SextH, ZextH]),
        ("ALU: bytes", vec![Rev8, OrcB]),
        (
            "ALU: shifted sums",
            vec![
                Sh1add, Sh2add, Sh3add, AddUw, Sh1addUw, Sh2addUw, Sh3addUw, SlliUw,
            ],
        ),
    ];
    let all = groups.iter().flat_map(|(_, kinds)| kinds.clone()).collect();
    groups.push(("ALU: every kind", all));
    groups
}

/// The rows of the table, on an image's encodings or on made ones.
pub fn rows(image: Option<&[u8]>) -> Vec<Work> {
    let mut random = Random::new(1, 5);
    let target = |most| {
        Some(Target {
            over: Side::Rust,
            most,
        })
    };
    let (words, halfwords, image) = match image {
        Some(image) => {
            let (words, halfwords) = made::split(image);
            (words, halfwords, image.to_vec())
        }
        None => {
            let (words, halfwords) = made::made(CALLS, &mut random);
            (words, halfwords, made::image(1 << 18, &mut random))
        }
    };
    let row = |name: &str, sides, target, calls| Work {
        name: name.into(),
        sides,
        target,
        calls,
    };
    let mut rows = vec![
        row(
            "decode a word",
            READ,
            target(0.95),
            Box::new(Words(words)) as Box<dyn Calls>,
        ),
        row(
            "decode a halfword",
            READ,
            target(0.95),
            Box::new(Halfwords(halfwords)),
        ),
    ];
    for (name, kinds) in groups() {
        let calls = (0..CALLS)
            .map(|_| {
                let kind = kinds[random.below(kinds.len() as u64) as usize];
                (kind, random.wide(), random.wide())
            })
            .collect();
        rows.push(row(name, BOTH, target(1.2), Box::new(Alu(calls))));
    }
    rows.extend(cache::rows(&image));
    rows
}
