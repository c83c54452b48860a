//! What include/unvriscol.h says of lent buffers: with length or count 0 a pointer may be NULL, and bytes need no alignment.
use std::ptr::{NonNull, null, null_mut};
use unvriscol::door::{self, Answer, NumberedReport};
use unvriscol::{Block, DecodedInsn, Reading, Report, Store, decode_word_into, store_len};

const BASE: u64 = 0x8000_0000;

/// Two pages, with addi a0, zero, 1 and ret at the start.
fn memory() -> Vec<u8> {
    let mut memory = vec![0; 8192];
    memory[..6].copy_from_slice(&[0x13, 0x05, 0x10, 0x00, 0x82, 0x80]);
    memory
}

fn nothing_done(number: u64) -> NumberedReport {
    NumberedReport {
        number,
        examined: 0,
        dropped: 0,
    }
}

#[test]
fn null_with_length_0() {
    let mut memory = memory();
    let mut store = Store::new(Reading::Rust, 2, BASE, 2).unwrap().into_bytes();
    let refused = |number| Answer { number, value: 0 };
    let (none, lent) = (null(), null_mut());
    let (at, len) = (store.as_mut_ptr(), store.len());
    // SAFETY: a NULL stands beside a length of 0, and the others are pointer and length of one buffer, lent for the call.
    unsafe {
        assert_eq!(door::uv_decode_word(0, 0x0010_0513, lent, 0), 6);
        assert_eq!(door::uv_decode_halfword(0, 0x8082, lent, 0), 6);
        assert_eq!(door::uv_form(0, none, 0, BASE, BASE, lent, 0), 2);
        let formed = door::uv_form(0, memory.as_ptr(), memory.len(), BASE, BASE, lent, 0);
        assert_eq!(formed, 6);
        assert_eq!(door::uv_make(lent, 0, 0, 2, BASE, 2), 1);
        assert_eq!(door::uv_lookup(none, 0, BASE), refused(1));
        assert_eq!(door::uv_insert(lent, 0, BASE, none, 0), 1);
        assert_eq!(door::uv_insert(at, len, BASE, none, 0), 6);
        assert_eq!(door::uv_notice(lent, 0, BASE), nothing_done(1));
        for nowhere in [null(), NonNull::dangling().as_ptr()] {
            assert_eq!(door::uv_notices(lent, 0, nowhere, 0), nothing_done(1));
            assert_eq!(door::uv_notices(at, len, nowhere, 0), nothing_done(0));
        }
        assert_eq!(door::uv_notices(lent, 0, &BASE, 1), nothing_done(1));
        assert_eq!(door::uv_flush(lent, 0), 1);
        assert_eq!(door::uv_generation(none, 0), refused(1));
        let (bytes, size) = (memory.as_mut_ptr(), memory.len());
        let unstored = door::uv_guest_write(lent, 0, bytes, size, BASE, 8, 0);
        assert_eq!(unstored, nothing_done(1));
        let nowhere = door::uv_guest_write(at, len, lent, 0, BASE, 8, 0);
        assert_eq!(nowhere, nothing_done(2));
    }
}

/// Every call that writes, on buffers so many bytes behind an aligned address, and all bytes afterwards.
fn calls(shift: usize) -> [Vec<u8>; 4] {
    fn lent(words: &mut [u64], shift: usize, len: usize) -> &mut [u8] {
        // SAFETY: the bytes of the words.
        let bytes = unsafe { std::slice::from_raw_parts_mut(words.as_mut_ptr().cast(), len + 8) };
        &mut bytes[shift..][..len]
    }
    let mut room = [const { Vec::new() }; 4].map(|mut room: Vec<u64>| {
        room.resize(2048, 0);
        room
    });
    let [op, record, guest, store] = &mut room;
    let op = lent(op, shift, DecodedInsn::LEN);
    let record = lent(record, shift, Block::LEN);
    let guest = lent(guest, shift, 8192);
    guest.copy_from_slice(&memory());

    decode_word_into(Reading::Manual, 0x0010_0513, op).unwrap();
    let bytes = lent(store, shift, store_len(2, 2).unwrap());
    let mut store = Store::make(bytes, Reading::Manual, 2, BASE, 2).unwrap();
    store.form_into(guest, BASE, record).unwrap();
    store.put(BASE, record).unwrap();
    assert_eq!(store.find(BASE), Ok(&*record));
    let one_dropped = Report {
        examined: 4,
        dropped: 1,
    };
    let crossing = store.guest_write(guest, BASE + 4095, 8, u64::MAX);
    assert_eq!(crossing, Ok(one_dropped));
    store.put(BASE, record).unwrap();
    assert_eq!(store.notice(BASE), one_dropped);
    store.put(BASE, record).unwrap();
    assert_eq!(store.notice_all(&[BASE + 4096, BASE]), one_dropped);
    store.flush_all();
    store.put(BASE, record).unwrap();
    [op, record, guest, store.into_bytes()].map(|bytes| bytes.to_vec())
}

#[test]
fn no_alignment() {
    for shift in 1..8 {
        assert!(calls(shift) == calls(0), "{shift} bytes behind");
    }
}

/// Of bytes that are no store a list of any length is refused, and neither they nor the list change; an empty list changes no store either.
#[test]
fn lists_that_change_nothing() {
    let store = Store::new(Reading::Rust, 2, BASE, 2).unwrap();
    let mut marked = store.clone();
    marked.insert(BASE, marked.form(&memory(), BASE).unwrap());
    let listed = |bytes: &mut [u8], addresses: &[u64]| {
        let (at, len) = (bytes.as_mut_ptr(), bytes.len());
        // SAFETY: pointer and length of one slice each, lent for the call.
        unsafe { door::uv_notices(at, len, addresses.as_ptr(), addresses.len()) }
    };
    for good in [store, marked] {
        let good = good.into_bytes();
        let mut bytes = good.clone();
        assert_eq!(listed(&mut bytes, &[]), nothing_done(0));
        assert!(bytes == good);

        let changed = |at: usize| {
            let mut bytes = good.to_vec();
            bytes[at] ^= 0x80;
            bytes
        };
        let longer = [&good[..], &[0]].concat();
        let shorter = good[1..].to_vec();
        // Bytes 9 to 15 changed are another base's.
        let header = (0..9).chain(16..24).map(changed);
        for mut bytes in header.chain([longer, shorter, vec![]]) {
            let before = bytes.clone();
            for addresses in [vec![], vec![BASE], vec![BASE; 65], vec![u64::MAX, 0, BASE]] {
                let list = addresses.clone();
                assert_eq!(listed(&mut bytes, &list), nothing_done(1));
                assert!(bytes == before && list == addresses);
            }
        }
    }
}
