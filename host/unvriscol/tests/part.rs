//! The example part on an image that has every entry of docs/DIFFERENCES.md, by its example there.
#[path = "../examples/part.rs"]
mod part;

use part::partings;

/// The examples of the tables: words, then halfwords.
const WORDS: [u32; 11] = [
    0x6825_1513,
    0x6845_1513,
    0x6045_1513,
    0x6055_1513,
    0xD585_5513,
    0xD485_5513,
    0x5075_5513,
    0x6B85_5513,
    0x2875_5513,
    0x0AC5_D533,
    0x0AC5_E533,
];
const HALFWORDS: [u16; 6] = [0x2001, 0x6101, 0x6081, 0x4002, 0x6002, 0x8002];

#[test]
fn every_entry() {
    const BASE: u64 = 0x8000_0000;
    let mut image = Vec::new();
    let mut expected = Vec::new();
    for (at, raw) in WORDS.into_iter().enumerate() {
        expected.push((BASE + image.len() as u64, raw));
        image.extend(raw.to_le_bytes());
        // Between them what both read the same: c.nop, ecall, c.ebreak.
        image.extend([&[0x01, 0x00][..], &[0x73, 0, 0, 0], &[0x02, 0x90]][at % 3]);
    }
    for raw in HALFWORDS {
        expected.push((BASE + image.len() as u64, raw.into()));
        image.extend(raw.to_le_bytes());
    }
    // A word over the page's end, whose second half alone would be an entry; and an entry behind it.
    image.resize(4094, 0);
    image.extend([0x13, 0x05, 0x02, 0x40]);
    expected.push((BASE + 4098, WORDS[9]));
    image.extend(WORDS[9].to_le_bytes());
    image.resize(8192, 0);

    let found = partings(&image, BASE);
    let places: Vec<_> = found.iter().map(|here| (here.address, here.raw)).collect();
    assert_eq!(places, expected);
    let shown = [9, 14].map(|at| found[at].to_string());
    assert_eq!(
        shown,
        [
            "0x8000003c: 0ac5d533  Rust: AluReg { kind: Max, rd: 10, rs1: 11, rs2: 12 }  manual: AluReg { kind: Minu, rd: 10, rs1: 11, rs2: 12 }",
            "0x80000050: 4002  Rust: Load { kind: Lw, rd: 0, rs1: 2, imm: 0 }  manual: none",
        ]
    );
}
