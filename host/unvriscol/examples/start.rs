use unvriscol::{Error, Reading, Store, decode_word};

fn main() -> Result<(), Error> {
    let decoded = decode_word(Reading::Manual, 0x0010_0513)?; // addi a0, zero, 1
    println!("{:?}", decoded.op); // AluImm { kind: Add, rd: 10, rs1: 0, imm: 1 }

    let base = 0x8000_0000;
    let mut memory = vec![0; 4096];
    memory[..6].copy_from_slice(&[0x13, 0x05, 0x10, 0x00, 0x82, 0x80]); // addi a0, zero, 1; ret

    let mut blocks = Store::new(Reading::Manual, 14, base, 1)?; // 2^14 slots over one page
    let block = blocks.form(&memory, base)?; // in the store's reading: two ops
    blocks.insert(base, block);
    assert!(blocks.lookup(base).is_some());

    let report = blocks.guest_write(&mut memory, base, 2, 0x0001)?; // the write, and the page's blocks are dropped
    assert_eq!((report.examined, report.dropped), (16_384, 1)); // slots, blocks
    assert!(blocks.lookup(base).is_none());
    Ok(())
}
