//! Bytes that are lent to the library, between bytes that it may neither read nor write.

/// As many on either side: an index that is one too large would reach them.
const BESIDE: usize = 168;

/// What is lent, what stands beside it, and where it begins.
pub struct Guarded {
    all: Vec<u8>,
    from: usize,
    len: usize,
    guard: u8,
}

impl Guarded {
    /// Each number has its alignment; beside even ones are bytes that no drawer has, beside odd ones zeros, which one could have.
    pub fn of(bytes: &[u8], number: usize) -> Guarded {
        let guard = [0xaa, 0][number % 2];
        let from = BESIDE + number / 2 % 8;
        let mut all = vec![guard; from + bytes.len() + BESIDE];
        all[from..from + bytes.len()].copy_from_slice(bytes);
        let len = bytes.len();
        Guarded {
            all,
            from,
            len,
            guard,
        }
    }

    pub fn bytes(&self) -> &[u8] {
        &self.all[self.from..self.from + self.len]
    }

    pub fn bytes_mut(&mut self) -> &mut [u8] {
        &mut self.all[self.from..self.from + self.len]
    }

    /// Whether nothing was written beside them.
    pub fn is_alone(&self) -> bool {
        let (before, rest) = self.all.split_at(self.from);
        let mut beside = before.iter().chain(&rest[self.len..]);
        beside.all(|byte| *byte == self.guard)
    }
}
