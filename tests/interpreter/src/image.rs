//! Method images: 1 to 16 blocks of 512 bytes, 510 of data and their RFC 1071 checksum.

use crate::numbers::CODE;
use crate::refusal::Refusal;

/// The bytes of a block.
pub const BLOCK: usize = 512;

/// The blocks that an image may have.
pub const BLOCKS: usize = 16;

/// The bytes of data in a block.
const DATA: usize = 510;

/// What the data begins with; then comes the code length in two bytes, high first.
const FIRST: [u8; 2] = [1, 0];

/// The bytes of data in front of the code.
const HEAD: usize = 4;

/// The code of an image, or 20 to 23.
pub fn read(image: &[u8]) -> Result<Vec<u8>, Refusal> {
    let (blocks, rest) = image.as_chunks::<BLOCK>();
    if !rest.is_empty() || !(1..=BLOCKS).contains(&blocks.len()) {
        return Err(Refusal::ImageLength); // 20
    }
    let mut data = Vec::with_capacity(blocks.len() * DATA);
    for block in blocks {
        let (block_data, block_check) = block.split_at(DATA);
        if check(block_data) != block_check {
            return Err(Refusal::BlockCheck); // 21
        }
        data.extend_from_slice(block_data);
    }
    let (head, body) = data.split_at(HEAD);
    let (first, length) = head.split_at(FIRST.len());
    let length = length.iter().fold(0, |length, &byte| 256 * length + usize::from(byte));
    if first != FIRST || !(1..=CODE).contains(&length) || blocks.len() != blocks_for(length) {
        return Err(Refusal::ImageHead); // 22
    }
    let (code, after) = body.split_at(length);
    if after.iter().any(|&byte| byte != 0) {
        return Err(Refusal::ByteAfterCode); // 23
    }
    Ok(code.to_vec())
}

/// Writes the image of a code to the front of `output` and answers how many bytes it has; 26, 27.
pub fn write(code: &[u8], output: &mut [u8]) -> Result<usize, Refusal> {
    if !(1..=CODE).contains(&code.len()) {
        return Err(Refusal::CodeLength); // 26
    }
    let blocks = blocks_for(code.len());
    let length = u16::try_from(code.len()).map_err(|_| Refusal::CodeLength)?;
    let mut data = [&FIRST, &length.to_be_bytes(), code].concat();
    data.resize(blocks * DATA, 0);
    let output = output.get_mut(..blocks * BLOCK).ok_or(Refusal::OutputTooShort)?; // 27
    for (block, block_data) in output.chunks_exact_mut(BLOCK).zip(data.chunks_exact(DATA)) {
        let (data_part, check_part) = block.split_at_mut(DATA);
        data_part.copy_from_slice(block_data);
        check_part.copy_from_slice(&check(block_data));
    }
    Ok(blocks * BLOCK)
}

/// The fewest blocks that hold the data of a code of this length.
fn blocks_for(code_length: usize) -> usize {
    (HEAD + code_length).div_ceil(DATA)
}

/// The RFC 1071 checksum, high byte first: the complement of the ones' complement sum of the two-byte words.
fn check(data: &[u8]) -> [u8; 2] {
    let (words, _) = data.as_chunks::<2>();
    let mut sum: u32 = words.iter().map(|&word| u32::from(u16::from_be_bytes(word))).sum();
    while sum > 0xFFFF {
        sum = (sum & 0xFFFF) + (sum >> 16);
    }
    (!(sum as u16)).to_be_bytes()
}
