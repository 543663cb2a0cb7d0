//! Method images: reading, writing, and what is refused in which order.

mod common;

use common::*;
use interpreter::image;

/// The checksum of a block's data, added up another way: byte by byte, the carry folded at once.
fn check(data: &[u8]) -> [u8; 2] {
    let mut sum = 0u16;
    for word in data.chunks(2) {
        let (next, carry) = sum.overflowing_add(u16::from(word[0]) << 8 | u16::from(word[1]));
        sum = next + u16::from(carry);
    }
    (!sum).to_be_bytes()
}

/// The blocks of some data, each with its right check.
fn blocks(data: &[u8]) -> Vec<u8> {
    data.chunks(510).flat_map(|block| [block, &check(block)].concat()).collect()
}

/// Data of `count` blocks: a head, a code and zeros.
fn data(head: [u8; 4], code: &[u8], count: usize) -> Vec<u8> {
    let mut data = [&head[..], code].concat();
    data.resize(510 * count, 0);
    data
}

#[test]
fn what_is_written_is_read() {
    let mut random = Random::new(4);
    for length in [1_usize, 2, 505, 506, 507, 1_016, 1_017, 8_155, 8_156] {
        let code: Vec<u8> = (0..length).map(|_| random.byte()).collect();
        let image = image_of(&code);
        assert_eq!(image.len(), 512 * (4 + length).div_ceil(510));
        assert_eq!(image, blocks(&data([1, 0, (length >> 8) as u8, length as u8], &code, image.len() / 512)));
        assert_eq!(image::read(&image), Ok(code));
    }
    assert_eq!(image_of(&[1; 506]).len(), 512);
    assert_eq!(image_of(&[1; 507]).len(), 1_024);
}

#[test]
fn writing_refuses() {
    let mut output = [9; 8_300];
    assert_eq!(number(image::write(&[], &mut output)), 26);
    assert_eq!(number(image::write(&[0; 8_157], &mut output)), 26);
    assert_eq!(number(image::write(&[0; 8_157], &mut [])), 26);
    assert_eq!(number(image::write(&[0; 507], &mut output[..1_023])), 27);
    assert_eq!(output, [9; 8_300], "a refused write leaves the output untouched");
    assert_eq!(image::write(&[0; 507], &mut output), Ok(1_024));
    assert!(output[1_024..].iter().all(|&byte| byte == 9), "output past the blocks is kept");
    assert_eq!(image::write(&[3; 8_156], &mut output[..8_192]), Ok(8_192));
}

#[test]
fn reading_refuses_lengths() {
    for length in [0, 1, 511, 513, 8_191, 8_193, 17 * 512] {
        assert_eq!(number(image::read(&vec![0; length])), 20, "length {length}");
    }
    assert_eq!(number(image::read(&[0; 512])), 21, "the check of zeros is FF FF");
}

#[test]
fn reading_refuses_checks_before_heads() {
    let good = blocks(&data([1, 0, 2, 0], &[7; 512], 2));
    assert_eq!(image::read(&good), Ok(vec![7; 512]));
    for at in 0..good.len() {
        let mut wrong = good.clone();
        wrong[at] ^= 0x10;
        assert_eq!(number(image::read(&wrong)), 21, "byte {at}");
    }
    let mut wrong = blocks(&data([2, 0, 2, 0], &[7; 512], 2));
    assert_eq!(number(image::read(&wrong)), 22);
    wrong[1_023] ^= 1;
    assert_eq!(number(image::read(&wrong)), 21, "the last block is looked at before the first two bytes");
}

#[test]
fn checks_are_compared_exactly() {
    // Data whose words add up to FF FF: its check is 00 00, and FF FF is not taken for it.
    let mut folded = data([1, 0, 0, 2], &[0, 0], 1);
    folded[4..6].copy_from_slice(&[0xFE, 0xFD]);
    let mut image = blocks(&folded);
    assert_eq!(image[510..], [0, 0]);
    assert_eq!(image::read(&image), Ok(vec![0xFE, 0xFD]));
    image[510..].fill(0xFF);
    assert_eq!(number(image::read(&image)), 21);
    // A block of zeros has check FF FF, and 00 00 is not taken for it.
    let mut image = blocks(&data([1, 0, 0x02, 0x00], &[0; 512], 2));
    assert_eq!(image[1_022..], [0xFF, 0xFF]);
    assert_eq!(image::read(&image), Ok(vec![0; 512]));
    image[1_022..].fill(0);
    assert_eq!(number(image::read(&image)), 21);
}

#[test]
fn reading_refuses_heads_before_bytes_after_the_code() {
    let of = |head, code: &[u8], count| number(image::read(&blocks(&data(head, code, count))));
    assert_eq!(of([1, 0, 0, 1], &[5], 1), 0);
    assert_eq!(of([1, 0, 0, 0], &[5], 1), 22, "L = 0");
    assert_eq!(of([0, 0, 0, 1], &[5], 1), 22);
    assert_eq!(of([1, 1, 0, 1], &[5], 1), 22);
    assert_eq!(of([1, 0, 0, 1], &[5], 2), 22, "more blocks than needed");
    assert_eq!(of([1, 0, 0x01, 0xFB], &[5; 507], 1), 22, "fewer blocks than needed");
    assert_eq!(of([1, 0, 0x1F, 0xDC], &[5; 8_156], 16), 0);
    assert_eq!(of([1, 0, 0x1F, 0xDD], &[5; 8_156], 16), 22, "L = 8,157");
    assert_eq!(of([1, 0, 0xFF, 0xFF], &[5; 8_156], 16), 22);
    assert_eq!(of([1, 0, 0, 1], &[5, 6], 1), 23);
    let mut last = data([1, 0, 0, 1], &[5], 1);
    last[509] = 1;
    assert_eq!(number(image::read(&blocks(&last))), 23);
    assert_eq!(of([1, 0, 0, 2], &[5, 6], 1), 0);
}
