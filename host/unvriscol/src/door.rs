//! The C functions themselves, as include/unvriscol.h declares them.
use crate::{Error, Report};

/// A number of docs/FORMATS.md, "Answer numbers", and the value beside it, which is 0 at every number but 0.
#[repr(C)]
#[derive(Clone, Copy, Debug, PartialEq, Eq)]
pub struct Answer {
    pub number: u64,
    pub value: u64,
}

impl Answer {
    /// The value, or the error that the number stands for.
    #[inline]
    pub fn checked(self) -> Result<u64, Error> {
        Error::check(self.number).map(|()| self.value)
    }
}

/// A number, and beside it what a notice, a list of them or a guest write did: zeros at every number but 0.
#[repr(C)]
#[derive(Clone, Copy, Debug, PartialEq, Eq)]
pub struct NumberedReport {
    pub number: u64,
    pub examined: u64,
    pub dropped: u64,
}

impl NumberedReport {
    /// What was done, or the error that the number stands for.
    #[inline]
    pub fn checked(self) -> Result<Report, Error> {
        Error::check(self.number).map(|()| Report {
            examined: self.examined,
            dropped: self.dropped,
        })
    }
}

unsafe extern "C" {
    /// # Safety
    /// `record` points at `record_len` bytes that nothing else touches during the call.
    pub fn uv_decode_word(reading: u64, raw: u32, record: *mut u8, record_len: usize) -> u64;
    /// # Safety
    /// As for [`uv_decode_word`].
    pub fn uv_decode_halfword(reading: u64, raw: u16, record: *mut u8, record_len: usize) -> u64;
    pub safe fn uv_alu(kind: u64, lhs: u64, rhs: u64) -> Answer;
    /// # Safety
    /// `memory` points at `memory_len` bytes that nothing writes during the call, and `record` at `record_len` that nothing else touches. So
    /// in all calls below: what a `*const` points at may be read by others meanwhile, what a `*mut` points at not.
    pub fn uv_form(
        reading: u64,
        memory: *const u8,
        memory_len: usize,
        base: u64,
        address: u64,
        record: *mut u8,
        record_len: usize,
    ) -> u64;
    /// # Safety
    /// As for [`uv_form`].
    pub fn uv_make(
        store: *mut u8,
        store_len: usize,
        reading: u64,
        e: u64,
        base: u64,
        pages: u64,
    ) -> u64;
    /// # Safety
    /// As for [`uv_form`].
    pub fn uv_lookup(store: *const u8, store_len: usize, address: u64) -> Answer;
    /// # Safety
    /// As for [`uv_form`].
    pub fn uv_insert(
        store: *mut u8,
        store_len: usize,
        address: u64,
        record: *const u8,
        record_len: usize,
    ) -> u64;
    /// # Safety
    /// As for [`uv_form`].
    pub fn uv_notice(store: *mut u8, store_len: usize, address: u64) -> NumberedReport;
    /// # Safety
    /// As for [`uv_form`], where `addresses` points at `count` numbers and is aligned for them.
    pub fn uv_notices(
        store: *mut u8,
        store_len: usize,
        addresses: *const u64,
        count: usize,
    ) -> NumberedReport;
    /// # Safety
    /// As for [`uv_form`].
    pub fn uv_flush(store: *mut u8, store_len: usize) -> u64;
    /// # Safety
    /// As for [`uv_form`].
    pub fn uv_generation(store: *const u8, store_len: usize) -> Answer;
    /// # Safety
    /// As for [`uv_form`].
    pub fn uv_guest_write(
        store: *mut u8,
        store_len: usize,
        memory: *mut u8,
        memory_len: usize,
        address: u64,
        size: u64,
        value: u64,
    ) -> NumberedReport;
}
