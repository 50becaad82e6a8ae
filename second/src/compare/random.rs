//! Numbers from a seed: the same seed gives the same run.

/// SplitMix64: small, quick, and good enough to pick cases.
pub struct Random(u64);

impl Random {
    pub fn new(seed: u64) -> Random {
        Random(seed)
    }

    pub fn number(&mut self) -> u64 {
        self.0 = self.0.wrapping_add(0x9e37_79b9_7f4a_7c15);
        let mut mixed = self.0;
        mixed = (mixed ^ (mixed >> 30)).wrapping_mul(0xbf58_476d_1ce4_e5b9);
        mixed = (mixed ^ (mixed >> 27)).wrapping_mul(0x94d0_49bb_1331_11eb);
        mixed ^ (mixed >> 31)
    }

    pub fn word(&mut self) -> u32 {
        self.number() as u32
    }

    pub fn byte(&mut self) -> u8 {
        self.number() as u8
    }

    /// 0 to `bound` - 1.
    pub fn below(&mut self, bound: usize) -> usize {
        (self.number() % bound as u64) as usize
    }

    pub fn from_to(&mut self, first: usize, last: usize) -> usize {
        first + self.below(last - first + 1)
    }

    pub fn one_in(&mut self, times: usize) -> bool {
        self.below(times) == 0
    }

    pub fn pick<T: Copy>(&mut self, items: &[T]) -> T {
        items[self.below(items.len())]
    }

    /// That many bytes, each from `first` to 0xFF.
    pub fn bytes_from(&mut self, first: u8, length: usize) -> Vec<u8> {
        (0..length).map(|_| self.from_to(usize::from(first), 0xFF) as u8).collect()
    }

    pub fn letters_or_digits(&mut self, length: usize) -> Vec<u8> {
        let all = b"abcdefghijklmnopqrstuvwxyzABCDEFGHIJKLMNOPQRSTUVWXYZ0123456789";
        (0..length).map(|_| self.pick(all)).collect()
    }

    /// A length up to `most`, its ends more often than the rest.
    pub fn length_to(&mut self, most: usize) -> usize {
        match self.below(8) {
            0 | 1 => 0,
            2 => most,
            3 => most - 1,
            4 => 1,
            _ => self.from_to(0, most),
        }
    }

    /// Lent memory of this length with something in it.
    pub fn memory(&mut self, length: usize) -> Vec<u8> {
        let (first, step) = (self.byte(), self.byte());
        (0..length).map(|place| first.wrapping_add(step.wrapping_mul(place as u8))).collect()
    }

    /// Reply memory: mostly enough, at times just enough, at times one byte short or none.
    pub fn reply_memory(&mut self, least: usize) -> Vec<u8> {
        let length = match self.below(16) {
            0 => least - 1,
            1 => self.below(least),
            2 => self.from_to(least, 2 * least),
            _ => least,
        };
        self.memory(length)
    }

    /// One byte changed, left out, doubled or put in; or the end cut off.
    pub fn damage(&mut self, bytes: &mut Vec<u8>) {
        if bytes.is_empty() {
            return bytes.push(self.byte());
        }
        let place = self.below(bytes.len());
        match self.below(6) {
            0 => bytes[place] = self.byte(),
            1 => bytes[place] = bytes[place].wrapping_add(1),
            2 => drop(bytes.remove(place)),
            3 => bytes.insert(place, bytes[place]),
            4 => bytes.insert(place, self.pick(b"\r\n %=0?1 ")),
            _ => bytes.truncate(place),
        }
    }
}
