//! Ids that share chains, and halves of which are alike.

use crate::random::Random;

/// Chain 0 has most of them; of chain 1 some, of chain 15 some; bit 4 alone, a half alone, or the sign tells others apart.
pub const IDS: [u64; 24] = [
    0,
    1,
    16,
    32,
    u64::MAX,
    1 << 32,
    (1 << 32) + 16,
    (1 << 32) + 32,
    2 << 32,
    1 << 63,
    (1 << 63) + 16,
    0xffff_fff0,
    0xffff_ffff_ffff_fff0,
    17,
    (1 << 32) + 1,
    (1 << 32) + 17,
    0x8000_0001,
    15,
    31,
    0xffff_ffff,
    0xffff_ffff_0000_000f,
    5,
    21,
    0x0102_0304_0506_0708,
];

/// Some ids for a drawer of that many records: about as many as it has, at times all of one chain.
pub fn some(random: &mut Random, records: usize) -> Vec<u64> {
    let head = random.below(16) as u64;
    let of_one_chain = random.below(3) == 0;
    let mut id = || match random.below(8) {
        0 => random.long(),
        1 => u64::from(random.word()) << random.below(33),
        2 => random.below(64) as u64,
        _ => IDS[random.below(IDS.len())],
    };
    let of_chain = |id: u64| if of_one_chain { id & !15 | head } else { id };
    (0..records + 2).map(|_| of_chain(id())).collect()
}
