//! What the original's op is as an op record (docs/FORMATS.md), written down here apart from the code under test.
use oracle::block::Op;

pub const LEN: usize = 16;

#[inline(always)]
pub fn of(op: Op, ilen: u8) -> [u8; LEN] {
    let mut record = [0; LEN];
    let mut put = |op: u8, kind: u8, registers: [u8; 3], imm: i64| {
        record[0] = op;
        record[1] = kind;
        record[2..5].copy_from_slice(&registers);
        record[8..].copy_from_slice(&imm.to_le_bytes());
    };
    match op {
        Op::Lui { rd, imm } => put(0, 0, [rd, 0, 0], imm),
        Op::Auipc { rd, imm } => put(1, 0, [rd, 0, 0], imm),
        Op::AluImm { kind, rd, rs1, imm } => put(2, kind as u8, [rd, rs1, 0], imm),
        Op::AluReg { kind, rd, rs1, rs2 } => put(3, kind as u8, [rd, rs1, rs2], 0),
        Op::Load { kind, rd, rs1, imm } => put(4, kind as u8, [rd, rs1, 0], imm),
        Op::Store {
            kind,
            rs1,
            rs2,
            imm,
        } => put(5, kind as u8, [0, rs1, rs2], imm),
        Op::Branch {
            kind,
            rs1,
            rs2,
            offset,
        } => put(6, kind as u8, [0, rs1, rs2], offset),
        Op::Jal { rd, offset } => put(7, 0, [rd, 0, 0], offset),
        Op::Jalr { rd, rs1, imm } => put(8, 0, [rd, rs1, 0], imm),
        Op::Fallback { raw } => put(9, 0, [0; 3], i64::from(raw)),
    }
    record[5] = ilen;
    record
}
