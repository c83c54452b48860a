//! Encodings in the proportions of compiled code: words and halfwords, and images of them; and those of an image that is there.
use crate::block;
use crate::random::Random;

/// The name and the bytes of an image that is there.
pub type Given = (String, Vec<u8>);

/// The image that the word behind `--image` names: a file of 1 byte to 65,536 pages.
pub fn given(name: Option<String>) -> Result<Given, String> {
    let name = name.ok_or("--image wants a file")?;
    let bytes = std::fs::read(&name).map_err(|why| format!("{name}: {why}"))?;
    match bytes.len() {
        0 => Err(format!("{name} is empty: an image has at least one byte")),
        1..=0x1000_0000 => Ok((name, bytes)),
        _ => Err(format!(
            "{name} is longer than 65,536 pages of 4,096 bytes, the longest memory"
        )),
    }
}

/// The words and halfwords of an image, as a hart would fetch them from its start on.
pub fn split(bytes: &[u8]) -> (Vec<u32>, Vec<u16>) {
    let (mut words, mut halfwords) = (Vec::new(), Vec::new());
    let mut rest = bytes;
    while let Some((&low, behind)) = rest.split_first_chunk::<2>() {
        let halfword = u16::from_le_bytes(low);
        if halfword & 3 != 3 {
            halfwords.push(halfword);
            rest = behind;
        } else if let Some((&word, behind)) = rest.split_first_chunk::<4>() {
            words.push(u32::from_le_bytes(word));
            rest = behind;
        } else {
            break;
        }
    }
    (words, halfwords)
}

/// Of a hundred words: how many have this opcode, and which funct3 and funct7 they may have (no funct7: any bits).
const MIX: [(u64, u32, &[u32], &[u32]); 13] = [
    (20, 0x13, &[0, 0, 0, 0, 7, 4, 6, 3, 2], &[]),
    (5, 0x13, &[1, 5], &[0x00, 0x01]),
    (2, 0x13, &[5], &[0x20, 0x21]),
    (22, 0x03, &[3, 3, 3, 2, 2, 4, 5, 0, 1, 6], &[]),
    (14, 0x23, &[3, 3, 2, 0, 1], &[]),
    (12, 0x63, &[0, 1, 4, 5, 6, 7], &[]),
    (4, 0x6f, &[0, 1, 2, 3, 4, 5, 6, 7], &[]),
    (3, 0x67, &[0], &[]),
    (3, 0x37, &[0, 1, 2, 3, 4, 5, 6, 7], &[]),
    (3, 0x17, &[0, 1, 2, 3, 4, 5, 6, 7], &[]),
    (6, 0x33, &[0, 0, 6, 7, 4, 3], &[0x00, 0x00, 0x01]),
    (4, 0x1b, &[0], &[]),
    (2, 0x3b, &[0], &[0x00, 0x20]),
];

/// Made encodings, all but a few of which have an op.
pub fn made(count: usize, random: &mut Random) -> (Vec<u32>, Vec<u16>) {
    let words = (0..count).map(|_| word(random)).collect();
    let halfwords = (0..count).map(|_| halfword(random)).collect();
    (words, halfwords)
}

/// An image of made code: six halfwords to four words, as compilers write.
pub fn image(len: usize, random: &mut Random) -> Vec<u8> {
    let mut image = Vec::with_capacity(len + 4);
    while image.len() < len {
        if random.below(10) < 6 {
            image.extend(halfword(random).to_le_bytes());
        } else {
            image.extend(word(random).to_le_bytes());
        }
    }
    image.truncate(len);
    image
}

fn halfword(random: &mut Random) -> u16 {
    loop {
        let raw = random.next() as u16;
        // One in fifty stays as it was drawn, with an op or without.
        if (block::HALFWORD)(raw).is_some() || random.below(50) == 0 {
            break raw;
        }
    }
}

fn word(random: &mut Random) -> u32 {
    let mut one = |of: &[u32]| of[random.below(of.len() as u64) as usize];
    let mut at = u64::from(one(&(0..100).collect::<Vec<_>>()));
    let (_, opcode, funct3, funct7) = MIX
        .into_iter()
        .find(|row| {
            let here = at < row.0;
            at = at.saturating_sub(row.0);
            here
        })
        .expect("the rows make a hundred");
    let shape = one(funct3) << 12 | opcode;
    let top = (!funct7.is_empty()).then(|| one(funct7) << 25);
    let free = random.next() as u32;
    match top {
        Some(top) => free & 0x01FF_8F80 | top | shape,
        None => free & 0xFFFF_8F80 | shape,
    }
}
