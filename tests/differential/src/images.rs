//! Images with something wrong with them, and codes at the borders of the writer.

use crate::random::Random;

const BLOCK: usize = 512;
const DATA: usize = 510;

/// An image: damaged in a way that gets 20, 21, 22 or 23, or not at all.
pub fn damaged(random: &mut Random, code: &[u8]) -> Vec<u8> {
    let mut image = assembler::image(code).unwrap_or_else(|| vec![0; BLOCK]);
    let length = image.len();
    match random.below(13) {
        0 => image.truncate(random.below(length + 1)),
        1 => image.extend((0..random.between(1, 600)).map(|_| 0)),
        2 => image.resize(random.pick(&[0, 1, 511, 513, 8_191, 8_193, 8_704, 16_384]), 0),
        3 => image[random.below(length)] ^= 1 << random.below(8),
        4 => swap_check(random, &mut image),
        // From here on the checks are right.
        5 => rechecked(&mut image, |data| data[random.below(2)] ^= 1 << random.below(8)),
        6 => rechecked(&mut image, |data| data[2] = random.byte()),
        7 => rechecked(&mut image, |data| data[3] = data[3].wrapping_add(random.pick(&[1, 255, 2, 128]))),
        8 => {
            let blocks = random.between(1, 17);
            image.resize(blocks * BLOCK, 0);
            rechecked(&mut image, |_| {});
        }
        9 => rechecked(&mut image, |data| {
            let last = data.len() - 1;
            data[random.between(4 + code.len().min(last - 4), last)] ^= 1;
        }),
        10 => rechecked(&mut image, |data| *data = vec![0; data.len()]),
        11 => rechecked(&mut image, |data| data[2..4].fill(0)),
        _ => {}
    }
    image
}

/// Changes the last word of a block's data so that its check is 00 00, and writes that or FF FF, which folds to the same. (Where the
/// word was in use its sum may carry; then both are wrong.)
fn swap_check(random: &mut Random, image: &mut [u8]) {
    let block = random.below(image.len() / BLOCK) * BLOCK;
    let data = &mut image[block..block + DATA];
    let was = u16::from_be_bytes(check(data));
    let last = u16::from_be_bytes([data[DATA - 2], data[DATA - 1]]);
    data[DATA - 2..].copy_from_slice(&last.wrapping_add(was).to_be_bytes());
    image[block + DATA..block + BLOCK].fill(random.pick(&[0xFF, 0x00]));
}

/// Changes the data of an image, and writes every block's check anew.
fn rechecked(image: &mut Vec<u8>, change: impl FnOnce(&mut Vec<u8>)) {
    let mut data: Vec<u8> = image.chunks(BLOCK).flat_map(|block| &block[..DATA]).copied().collect();
    change(&mut data);
    *image = data.chunks(DATA).flat_map(|block| [block, &check(block)].concat()).collect();
}

/// The RFC 1071 checksum of a block's data.
fn check(data: &[u8]) -> [u8; 2] {
    let sum = data.chunks(2).map(|word| u32::from(word[0]) << 8 | u32::from(word[1])).fold(0, |sum, word| {
        let sum = sum + word;
        (sum & 0xFFFF) + (sum >> 16)
    });
    (!(sum as u16)).to_be_bytes()
}

/// A code whose length is at a border of the writer, or any.
pub fn border_code(random: &mut Random) -> Vec<u8> {
    let any = random.below(9_000);
    let length = random.pick(&[0, 1, 2, 505, 506, 507, 508, 1_016, 1_017, 8_155, 8_156, 8_157, 9_000, any]);
    if random.one_in(3) {
        return vec![random.pick(&[0, 255, 1]); length];
    }
    (0..length).map(|_| random.byte()).collect()
}
