//! The original's files, included from the checkout as they stand. Modules that the checkout given to us lacks, and `execute`, which needs them,
//! have stand-ins with what the included files name.

/// What block.rs names of the crate rustc_hash.
pub type FxHashMap<K, V> = std::collections::HashMap<K, V>;

/// A module of the original, whole and unchanged, with what stands behind it to reach its private parts.
macro_rules! original {
    ($module:ident, $file:literal $(; $($item:item)*)?) => {
        #[allow(dead_code, unexpected_cfgs)]
        pub mod $module {
            include!(concat!(env!("VPOD_SOURCE"), "/", $file));
            $($($item)*)?
        }
    };
}

original!(decode, "decode.rs");
original!(extensions, "extensions.rs");
original!(gpr, "gpr.rs");
original!(mmu, "mmu.rs");
original!(system_bus, "system_bus.rs");
original!(trap, "trap.rs");
original! {
    block, "block.rs";

    /// `decode_full`, which is private.
    pub const WORD: fn(u32) -> Option<Op> = decode_full;
    /// `decode_compressed`, which is private.
    pub const HALFWORD: fn(u16) -> Option<Op> = decode_compressed;
    /// `alu`, which the original inlines. Not here, as a C function is not.
    #[inline(never)]
    pub fn computed(kind: AluKind, lhs: u64, rhs: u64) -> u64 {
        alu(kind, lhs, rhs)
    }

    /// A slot's tag and block, which are private.
    pub fn slot(cache: &BlockCache, at: usize) -> (u64, Option<&Block>) {
        (cache.slots[at].tag, cache.slots[at].block.as_deref())
    }
    /// How many slots have a block.
    pub fn live(cache: &BlockCache) -> usize {
        cache.slots.iter().filter(|slot| slot.block.is_some()).count()
    }
    /// Whether a page, counted from address 0, is marked.
    pub fn marked(cache: &BlockCache, page: u64) -> bool {
        let word = cache.page_bitmap.get((page / 64) as usize);
        word.is_some_and(|word| word >> (page % 64) & 1 == 1)
    }
    /// How many slots a cache has.
    pub const SLOTS: usize = CACHE_SLOTS;
}

/// Stand-in.
pub mod csr {
    #[derive(Clone, Copy, PartialEq)]
    pub enum PrivMode {
        M,
        S,
    }

    pub struct Csr {
        pub instret: u64,
        pub satp: u64,
    }
}

/// Stand-in: nothing is counted.
pub mod perf {
    macro_rules! notes {
        ($($name:ident)*) => { $(#[inline(always)] pub fn $name() {})* };
    }
    notes!(note_bare_translate note_cross_page note_fallback_op note_load note_load_fast_hit note_store note_store_fast_hit);
    notes!(note_store_page_eviction note_tlb_hit note_tlb_walk);
}

/// Stand-in.
pub mod syscall_trace {
    pub struct SyscallEntry;
}

/// Stand-in: the fields of the context that block.rs names. Nothing here executes an instruction.
pub mod execute {
    use crate::block::BlockCache;
    use crate::csr::{Csr, PrivMode};
    use crate::gpr::Gpr;
    use crate::mmu::Mmu;
    use crate::system_bus::SystemBus;
    use crate::trap::StepResult;

    pub struct ExecContext<'a, B: SystemBus> {
        pub regs: &'a mut Gpr,
        pub csr: &'a mut Csr,
        pub mmu: &'a mut Mmu,
        pub bus: &'a mut B,
        pub priv_mode: &'a mut PrivMode,
        pub is_waiting: &'a mut bool,
        pub blocks: &'a mut BlockCache,
    }

    pub fn take_exception<B: SystemBus>(_: &mut ExecContext<B>, _: u64, _: u64) {
        unreachable!("nothing is executed")
    }

    pub fn exec_raw<B: SystemBus>(_: &mut ExecContext<B>, _: u32, _: u64) -> StepResult {
        unreachable!("nothing is executed")
    }
}
