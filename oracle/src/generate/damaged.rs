//! Images with bytes flipped, cut off, added or overwritten.

use super::random::Random;

/// Damages an image in one to three places.
pub fn damage(random: &mut Random, bytes: &mut Vec<u8>) {
    for _ in 0..random.pick(&[1, 1, 1, 2, 3]) {
        once(random, bytes);
    }
}

fn once(random: &mut Random, bytes: &mut Vec<u8>) {
    let at = random.below(bytes.len() + 1);
    match random.below(7) {
        0 => bytes.truncate(at),
        1 => {
            let more = random.between(1, 9);
            bytes.extend((0..more).map(|_| random.pick(&[0, 1, 255])));
        }
        2 => bytes.insert(at, random.next() as u8),
        3 if at < bytes.len() => {
            bytes.remove(at);
        }
        4 if at < bytes.len() => bytes[at] ^= 1 << random.below(8),
        5 if at + 4 <= bytes.len() => {
            // A count or part of an address, far too great.
            bytes[at..at + 4].copy_from_slice(&random.word().to_le_bytes());
        }
        _ => {
            if let Some(byte) = bytes.get_mut(at) {
                *byte = byte.wrapping_add(random.pick(&[1, 255, 2]));
            }
        }
    }
}
