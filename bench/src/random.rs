//! Numbers and texts that look random.

/// Numbers that look random, by splitmix64.
pub struct Random(pub u64);

impl Random {
    pub fn number(&mut self) -> u64 {
        self.0 = self.0.wrapping_add(0x9E37_79B9_7F4A_7C15);
        let mut mixed = self.0;
        mixed = (mixed ^ (mixed >> 30)).wrapping_mul(0xBF58_476D_1CE4_E5B9);
        mixed = (mixed ^ (mixed >> 27)).wrapping_mul(0x94D0_49BB_1331_11EB);
        mixed ^ (mixed >> 31)
    }

    pub fn between(&mut self, least: u64, most: u64) -> u64 {
        least + self.number() % (most - least + 1)
    }

    pub fn of_bits(&mut self, bits: u64) -> u64 {
        (self.number() | 1 << 63) >> (64 - bits)
    }

    /// A number whose shortest varint has so many bytes.
    pub fn of_width(&mut self, width: u64) -> u64 {
        let bits = self.between(7 * width - 6, (7 * width).min(64));
        self.of_bits(bits)
    }

    /// A number of one to 64 bits, a short one more often than a long one.
    pub fn mixed(&mut self) -> u64 {
        let most = self.between(1, 64);
        let bits = self.between(1, most);
        self.of_bits(bits)
    }

    pub fn ascii(&mut self, least: u64, most: u64) -> String {
        let len = self.between(least, most);
        (0..len)
            .map(|_| self.between(0x20, 0x7E) as u8 as char)
            .collect()
    }

    /// Characters of one to four bytes.
    pub fn text(&mut self, least: u64, most: u64) -> String {
        let len = self.between(least, most);
        (0..len).map(|_| self.character()).collect()
    }

    fn character(&mut self) -> char {
        let code = match self.between(0, 9) {
            0..=3 => self.between(0x20, 0x7E),
            4..=6 => self.between(0x3B1, 0x44F),
            7..=8 => self.between(0x4E00, 0x9FFF),
            _ => self.between(0x1F600, 0x1F64F),
        };
        char::from_u32(code as u32).unwrap()
    }
}
