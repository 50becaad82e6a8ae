//! Messages for the digest.

use super::random::Random;
use crate::face::Act;

/// "messages of every length to 300", each twice: one byte over and over, and anything.
pub fn short() -> impl Iterator<Item = usize> {
    0..=300
}

pub fn of_length(random: &mut Random, length: usize) -> [Act; 2] {
    let byte = random.byte();
    [Act::Digest { message: vec![byte; length] }, Act::Digest { message: random.bytes_from(0, length) }]
}

/// "and some of megabytes".
pub fn long(random: &mut Random) -> Act {
    let length = (1 << 20) + random.below(1 << 20);
    let mut message: Vec<u8> = Vec::with_capacity(length + 8);
    while message.len() < length {
        message.extend_from_slice(&random.number().to_le_bytes());
    }
    message.truncate(length);
    Act::Digest { message }
}
