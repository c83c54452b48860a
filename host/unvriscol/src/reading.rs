/// What words and halfwords decode to (docs/FORMATS.md, "Readings"). The two part only at the encodings of docs/DIFFERENCES.md.
///
/// A store has one of them: every block that is put into it is to be formed in that one ([`Store::form`](crate::Store::form) does so). Choose
/// [`Manual`](Self::Manual) for what a compiler emitted, unless the guest was tested on the original and must go on as it did there.
#[derive(Clone, Copy, Debug, PartialEq, Eq, Hash)]
#[repr(u64)]
pub enum Reading {
    /// As the original core decodes: MINU is Max, SEXT.B, SEXT.H, REV8 and ORC.B have no op, and some reserved encodings have one.
    Rust = 0,
    /// As the RISC-V unprivileged manual says: RV64I, M, C, Zba and Zbb, integer part. Reserved encodings have no op.
    Manual = 1,
}

impl Reading {
    /// Both, each at its number.
    pub const ALL: [Self; 2] = [Self::Rust, Self::Manual];

    /// The number that the C functions take, and that a store's header has.
    #[inline]
    pub fn number(self) -> u64 {
        self as u64
    }
}
