//! What the generators share: hard numbers, their neighbours, and how words are written.

pub const NAN: f32 = f32::from_bits(0x7fc0_0000);
pub const NEGATIVE_NAN: f32 = f32::from_bits(0xffc0_0000);
pub const INF: f32 = f32::INFINITY;
pub const LARGEST: f32 = f32::MAX;
pub const SMALLEST: f32 = f32::from_bits(1);

/// Limits of both signs, both zeros, both infinities, three kinds of not-a-number.
pub const EDGES: [u32; 15] = [
    0x0000_0000,
    0x8000_0000,
    0x0000_0001,
    0x8000_0001,
    0x007f_ffff,
    0x807f_ffff,
    0x0080_0000,
    0x8080_0000,
    0x7f7f_ffff,
    0xff7f_ffff,
    0x7f80_0000,
    0xff80_0000,
    0x7fc0_0000,
    0xffc0_0000,
    0x7f80_0001,
];

/// The number some steps further from zero, or nearer where the steps are below 0.
pub fn away(x: f32, steps: i32) -> f32 {
    f32::from_bits(x.to_bits().wrapping_add_signed(steps))
}

/// One step nearer to zero, the number itself, and one step further.
pub fn around(x: f32) -> [f32; 3] {
    [away(x, -1), x, away(x, 1)]
}

/// Each word as a space and eight digits.
pub fn in_hex(words: &[u32]) -> String {
    words.iter().map(|word| format!(" {word:08x}")).collect()
}

/// The bits of a number; every not-a-number is shown alike.
pub fn shown(x: f32) -> u32 {
    if x.is_nan() {
        0x7fc0_0000
    } else {
        x.to_bits()
    }
}

/// Each word in four bytes, the lowest first.
pub fn in_bytes(words: &[u32]) -> Vec<u8> {
    words.iter().flat_map(|word| word.to_le_bytes()).collect()
}

/// The words of a record, from their bytes.
pub fn from_bytes(record: &[u8]) -> Vec<u32> {
    let word = |part: &[u8]| u32::from_le_bytes(part.try_into().expect("four bytes"));
    record.chunks(4).map(word).collect()
}
