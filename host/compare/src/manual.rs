//! The manual's reading, by the tables of docs/DIFFERENCES.md: at an entry the manual's answer that stands there, and everywhere else the original's.
use oracle::block::{self, AluKind, Op};
use oracle::made;
use oracle::random::Random;

/// Opcode 0x13: funct3, bits 31:20, and the kind of the manual's op, if it has one.
const IMM: [(u32, u32, Option<AluKind>); 9] = [
    (1, 0x682, None),
    (1, 0x684, None),
    (1, 0x604, Some(AluKind::SextB)),
    (1, 0x605, Some(AluKind::SextH)),
    (5, 0xD58, None),
    (5, 0xD48, None),
    (5, 0x507, None),
    (5, 0x6B8, Some(AluKind::Rev8)),
    (5, 0x287, Some(AluKind::OrcB)),
];

/// Opcode 0x33, funct7 5: funct3, and the kind of the manual's op.
const REG: [(u32, AluKind); 2] = [(5, AluKind::Minu), (6, AluKind::Max)];

/// How many words and halfwords the entries cover.
pub const WORDS: u64 = 74_752;
pub const HALFWORDS: u64 = 225;

/// The manual's answer where an entry covers the word.
#[inline(always)]
fn word_entry(raw: u32) -> Option<Option<Op>> {
    let bits = |from: u32, count: u32| raw >> from & ((1 << count) - 1);
    let (rd, rs1, rs2) = (bits(7, 5) as u8, bits(15, 5) as u8, bits(20, 5) as u8);
    match bits(0, 7) {
        0x13 => {
            let here = |&&(funct3, top, _): &&_| (funct3, top) == (bits(12, 3), bits(20, 12));
            let &(_, _, kind) = IMM.iter().find(here)?;
            let imm = 0;
            Some(kind.map(|kind| Op::AluImm { kind, rd, rs1, imm }))
        }
        0x33 if bits(25, 7) == 5 => {
            let &(_, kind) = REG.iter().find(|&&(funct3, _)| funct3 == bits(12, 3))?;
            Some(Some(Op::AluReg { kind, rd, rs1, rs2 }))
        }
        _ => None,
    }
}

/// Whether an entry covers the halfword; the manual reads all of these as none.
#[inline(always)]
fn halfword_entry(raw: u16) -> bool {
    let rd = raw >> 7 & 31;
    let zero = raw >> 12 & 1 == 0 && raw >> 2 & 31 == 0; // bits 12 and 6:2
    match (raw & 3, raw >> 13) {
        (1, 1) => rd == 0,         // C.ADDIW with rd 0
        (1, 3) => zero,            // C.ADDI16SP (rd 2) and C.LUI with immediate 0
        (2, 2) => rd == 0,         // C.LWSP with rd 0
        (2, 3) => rd == 0,         // C.LDSP with rd 0
        (2, 4) => zero && rd == 0, // C.JR with rs1 0
        _ => false,
    }
}

#[inline(always)]
pub fn word(raw: u32) -> Option<Op> {
    word_entry(raw).unwrap_or_else(|| (block::WORD)(raw))
}

#[inline(always)]
pub fn halfword(raw: u16) -> Option<Op> {
    if halfword_entry(raw) {
        None
    } else {
        (block::HALFWORD)(raw)
    }
}

/// Whether the two readings part there.
pub fn parts_word(raw: u32) -> bool {
    word_entry(raw).is_some()
}

pub fn parts_halfword(raw: u16) -> bool {
    halfword_entry(raw)
}

/// One of the words that an entry covers.
pub fn some_word(random: &mut Random) -> u32 {
    let free = random.next() as u32;
    let at = random.below((IMM.len() + REG.len()) as u64) as usize;
    match IMM.get(at) {
        Some((funct3, top, _)) => top << 20 | funct3 << 12 | free & 0x000F_8F80 | 0x13,
        None => 5 << 25 | REG[at - IMM.len()].0 << 12 | free & 0x01FF_8F80 | 0x33,
    }
}

/// One of the halfwords that an entry covers.
pub fn some_halfword(random: &mut Random) -> u16 {
    loop {
        let raw = random.next() as u16;
        if halfword_entry(raw) {
            break raw;
        }
    }
}

/// An image of made code in which one encoding of eight is an entry's.
pub fn image(len: usize, random: &mut Random) -> Vec<u8> {
    let (words, halfwords) = made::made(len / 2, random);
    let mut image = Vec::with_capacity(len + 4);
    for (word, halfword) in words.into_iter().zip(halfwords) {
        match random.below(16) {
            0 => image.extend(some_word(random).to_le_bytes()),
            1 => image.extend(some_halfword(random).to_le_bytes()),
            2..10 => image.extend(halfword.to_le_bytes()),
            _ => image.extend(word.to_le_bytes()),
        }
    }
    image.truncate(len);
    image
}
