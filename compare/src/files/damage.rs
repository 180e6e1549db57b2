//! Files that came of a stored table and are spoilt: bytes changed, blocks swapped, cut off, doubled, and block 0 made to say something
//! else.

use crate::generate::random::Random;
use crate::model::file::{seal, BLOCK};

/// What happened to a file; the sample has the number.
#[derive(Debug, Clone, Copy, PartialEq, Eq)]
pub enum Damage {
    /// Nothing.
    Sound,
    /// One byte is another.
    Byte,
    /// One byte is another, and its block's check is made right.
    Sealed,
    /// Two blocks stand in each other's place.
    Swapped,
    /// The end is missing.
    Cut,
    /// A block stands twice, or some bytes stand behind the last.
    Longer,
    /// Block 0 says another form, length, count or ending, and its check is made right.
    Said,
}

impl Damage {
    pub const ALL: [Damage; 7] = [
        Damage::Sound,
        Damage::Byte,
        Damage::Sealed,
        Damage::Swapped,
        Damage::Cut,
        Damage::Longer,
        Damage::Said,
    ];
}

/// How many words block 0 says, and behind which byte.
const SAID: usize = 7;
const SAID_FROM: usize = 4;

/// The file with this damage; a file of one block stays as it is where blocks are swapped.
pub fn damaged(random: &mut Random, file: &[u8], damage: Damage) -> Vec<u8> {
    let mut file = file.to_vec();
    let at = random.below(file.len());
    match damage {
        Damage::Sound => {}
        Damage::Byte => change(random, &mut file, at),
        Damage::Sealed => {
            change(random, &mut file, at / BLOCK * BLOCK + at % (BLOCK - 4));
            make_right(&mut file, at / BLOCK);
        }
        Damage::Swapped => swap(random, &mut file),
        Damage::Cut if random.one_in(2) => file.truncate(at),
        Damage::Cut => file.truncate(at / BLOCK * BLOCK),
        Damage::Longer if random.one_in(2) => file.extend(vec![0; 1 + random.below(BLOCK)]),
        Damage::Longer => {
            let block = file[at / BLOCK * BLOCK..][..BLOCK].to_vec();
            file.splice(at / BLOCK * BLOCK..at / BLOCK * BLOCK, block);
        }
        Damage::Said => say(random, &mut file),
    }
    file
}

/// Makes one byte another.
pub fn change(random: &mut Random, file: &mut [u8], at: usize) {
    file[at] = file[at].wrapping_add(1 + random.below(255) as u8);
}

/// Makes a block's check right.
pub fn make_right(file: &mut [u8], block: usize) {
    let bytes = &mut file[block * BLOCK..][..BLOCK];
    let mut right = bytes.to_vec();
    seal(&mut right);
    bytes.copy_from_slice(&right);
}

/// Two blocks change places, if there are two.
fn swap(random: &mut Random, file: &mut [u8]) {
    let blocks = file.len() / BLOCK;
    if blocks < 2 {
        return;
    }
    let one = random.below(blocks);
    let other = (one + 1 + random.below(blocks - 1)) % blocks;
    for k in 0..BLOCK {
        file.swap(one * BLOCK + k, other * BLOCK + k);
    }
}

/// One of the words that block 0 says becomes another, mostly by little.
fn say(random: &mut Random, file: &mut [u8]) {
    let at = SAID_FROM + 4 * random.below(SAID);
    let Some(word) = file[at..].first_chunk_mut::<4>() else {
        return;
    };
    let said = u32::from_le_bytes(*word);
    let other = match random.below(8) {
        0 => u32::MAX,
        1 => 0,
        2 => random.below(20) as u32,
        3 => said.wrapping_add(15),
        4 | 5 => said.wrapping_sub(1),
        _ => said.wrapping_add(1),
    };
    *word = other.to_le_bytes();
    make_right(file, 0);
}
