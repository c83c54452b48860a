//! Ops with the original's names, and the way from an op record to an op and back.

/// An enum whose positions are the numbers of docs/FORMATS.md, "Kinds", with the way back from a number.
macro_rules! kinds {
    ($(#[$doc:meta])* pub enum $name:ident { $($kind:ident),* $(,)? }) => {
        $(#[$doc])*
        #[derive(Clone, Copy, Debug, PartialEq, Eq, Hash)]
        #[repr(u8)]
        pub enum $name { $($kind),* }

        impl $name {
            /// Every kind, at its number.
            pub const ALL: &'static [Self] = &[$(Self::$kind),*];

            fn at(number: u8) -> Option<Self> {
                Self::ALL.get(usize::from(number)).copied()
            }
        }
    };
}

kinds! {
    /// What an ALU op computes.
    pub enum AluKind {
        Add, Sub, Sll, Slt, Sltu, Xor, Srl, Sra, Or, And, Addw, Subw, Sllw, Srlw, Sraw, Mul, Mulh, Mulhsu, Mulhu, Div, Divu, Rem, Remu, Mulw, Divw, Divuw, Remw, Remuw, Andn, Orn, Xnor, Rol, Ror, Rolw, Rorw, Min, Max, Minu, Maxu, Clz, Ctz, Cpop, Clzw, Ctzw, Cpopw, SextB, SextH, ZextH, Rev8, OrcB, Sh1add, Sh2add, Sh3add, AddUw, Sh1addUw, Sh2addUw, Sh3addUw, SlliUw,
    }
}

kinds! {
    /// How wide a load is, and how its value is extended.
    pub enum LoadKind {
        Lb, Lbu, Lh, Lhu, Lw, Lwu, Ld,
    }
}

kinds! {
    /// How wide a store is.
    pub enum StoreKind {
        Sb, Sh, Sw, Sd,
    }
}

kinds! {
    /// What a branch tests.
    pub enum BranchKind {
        Beq, Bne, Blt, Bge, Bltu, Bgeu,
    }
}

/// An op, with its registers and its immediate.
#[derive(Clone, Copy, Debug, PartialEq, Eq, Hash)]
pub enum Op {
    Lui {
        rd: u8,
        imm: i64,
    },
    Auipc {
        rd: u8,
        imm: i64,
    },
    AluImm {
        kind: AluKind,
        rd: u8,
        rs1: u8,
        imm: i64,
    },
    AluReg {
        kind: AluKind,
        rd: u8,
        rs1: u8,
        rs2: u8,
    },
    Load {
        kind: LoadKind,
        rd: u8,
        rs1: u8,
        imm: i64,
    },
    Store {
        kind: StoreKind,
        rs1: u8,
        rs2: u8,
        imm: i64,
    },
    Branch {
        kind: BranchKind,
        rs1: u8,
        rs2: u8,
        offset: i64,
    },
    Jal {
        rd: u8,
        offset: i64,
    },
    Jalr {
        rd: u8,
        rs1: u8,
        imm: i64,
    },
    Fallback {
        raw: u32,
    },
}

/// An op at its place in a block: how far from the block's address, and how many bytes long.
#[derive(Clone, Copy, Debug, PartialEq, Eq, Hash)]
pub struct DecodedInsn {
    pub op: Op,
    pub pc_off: u16,
    pub ilen: u8,
}

impl DecodedInsn {
    /// The length of an op record.
    pub const LEN: usize = 16;

    /// The op record: the sixteen bytes of docs/FORMATS.md, "The op record".
    pub fn to_record(&self) -> [u8; Self::LEN] {
        let (op, kind, rd, rs1, rs2, imm) = match self.op {
            Op::Lui { rd, imm } => (0, 0, rd, 0, 0, imm),
            Op::Auipc { rd, imm } => (1, 0, rd, 0, 0, imm),
            Op::AluImm { kind, rd, rs1, imm } => (2, kind as u8, rd, rs1, 0, imm),
            Op::AluReg { kind, rd, rs1, rs2 } => (3, kind as u8, rd, rs1, rs2, 0),
            Op::Load { kind, rd, rs1, imm } => (4, kind as u8, rd, rs1, 0, imm),
            Op::Store {
                kind,
                rs1,
                rs2,
                imm,
            } => (5, kind as u8, 0, rs1, rs2, imm),
            Op::Branch {
                kind,
                rs1,
                rs2,
                offset,
            } => (6, kind as u8, 0, rs1, rs2, offset),
            Op::Jal { rd, offset } => (7, 0, rd, 0, 0, offset),
            Op::Jalr { rd, rs1, imm } => (8, 0, rd, rs1, 0, imm),
            Op::Fallback { raw } => (9, 0, 0, 0, 0, i64::from(raw)),
        };
        let mut record = [
            op, kind, rd, rs1, rs2, self.ilen, 0, 0, 0, 0, 0, 0, 0, 0, 0, 0,
        ];
        record[6..8].copy_from_slice(&self.pc_off.to_le_bytes());
        record[8..].copy_from_slice(&imm.to_le_bytes());
        record
    }

    /// The op of a record. None where the record is not well formed: an op number or a kind unknown, a register above 31, a field that the
    /// op lacks not 0, an ilen that is not the op's.
    pub fn from_record(record: &[u8; Self::LEN]) -> Option<Self> {
        let [op, kind, rd, rs1, rs2, ilen, low, high, imm @ ..] = *record;
        let imm = i64::from_le_bytes(imm);
        let op = match op {
            0 => Op::Lui { rd, imm },
            1 => Op::Auipc { rd, imm },
            2 => Op::AluImm {
                kind: AluKind::at(kind)?,
                rd,
                rs1,
                imm,
            },
            3 => Op::AluReg {
                kind: AluKind::at(kind)?,
                rd,
                rs1,
                rs2,
            },
            4 => Op::Load {
                kind: LoadKind::at(kind)?,
                rd,
                rs1,
                imm,
            },
            5 => Op::Store {
                kind: StoreKind::at(kind)?,
                rs1,
                rs2,
                imm,
            },
            6 => Op::Branch {
                kind: BranchKind::at(kind)?,
                rs1,
                rs2,
                offset: imm,
            },
            7 => Op::Jal { rd, offset: imm },
            8 => Op::Jalr { rd, rs1, imm },
            9 => Op::Fallback {
                raw: u32::try_from(imm).ok()?,
            },
            _ => return None,
        };
        let decoded = Self {
            op,
            pc_off: u16::from_le_bytes([low, high]),
            ilen,
        };
        let long = ilen == 4 || (ilen == 2 && !matches!(op, Op::Fallback { .. }));
        // A field that the op lacks is 0 exactly when the record is what the op gives back.
        let whole =
            [rd, rs1, rs2].iter().all(|&register| register < 32) && decoded.to_record() == *record;
        (long && whole).then_some(decoded)
    }

    /// The op of a record that a call wrote.
    pub(crate) fn proved(record: &[u8; Self::LEN]) -> Self {
        Self::from_record(record).expect("a call's record is proved to be an op's")
    }
}

#[cfg(test)]
mod tests {
    use super::*;

    /// c.sdsp s0, 8(sp): op 5, kind 3, rs1 2, rs2 8.
    const GOOD: [u8; 16] = [5, 3, 0, 2, 8, 2, 6, 1, 8, 0, 0, 0, 0, 0, 0, 0];

    #[test]
    fn a_record_and_its_op() {
        let decoded = DecodedInsn::from_record(&GOOD).unwrap();
        let op = Op::Store {
            kind: StoreKind::Sd,
            rs1: 2,
            rs2: 8,
            imm: 8,
        };
        assert_eq!(
            decoded,
            DecodedInsn {
                op,
                pc_off: 0x106,
                ilen: 2
            }
        );
        assert_eq!(decoded.to_record(), GOOD);
    }

    #[test]
    fn ill_formed_records() {
        for (at, byte) in [(0, 10), (1, 4), (2, 1), (3, 32), (5, 3), (0, 9)] {
            let mut record = GOOD;
            record[at] = byte;
            assert_eq!(
                DecodedInsn::from_record(&record),
                None,
                "byte {at} is {byte}"
            );
        }
    }

    #[test]
    fn a_fallback_is_four_bytes_long_and_below_2_to_32() {
        let mut record = [9, 0, 0, 0, 0, 4, 0, 0, 0xff, 0xff, 0xff, 0xff, 0, 0, 0, 0];
        assert!(DecodedInsn::from_record(&record).is_some());
        record[5] = 2;
        assert_eq!(DecodedInsn::from_record(&record), None);
        record[5] = 4;
        record[12] = 1;
        assert_eq!(DecodedInsn::from_record(&record), None);
    }
}
