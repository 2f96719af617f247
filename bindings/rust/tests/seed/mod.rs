//! Numbers, keys and values as good as random.
#![allow(dead_code)] // each test that includes it uses a part

pub struct Seed(pub u64);

impl Seed {
    pub fn below(&mut self, limit: usize) -> usize {
        self.0 = self
            .0
            .wrapping_mul(6364136223846793005)
            .wrapping_add(1442695040888963407);
        (self.0 >> 33) as usize % limit
    }

    /// One of some 250 short keys, the empty one among them, and now and then a long one.
    pub fn key(&mut self) -> Vec<u8> {
        if self.below(50) == 0 {
            return vec![b'a' + self.below(3) as u8; [16, 17, 1000][self.below(3)]];
        }
        let len = self.below(4);
        (0..len).map(|_| b"\0abcd\xff"[self.below(6)]).collect()
    }

    /// Most values are short, some are empty, and a few are longer than the room that is made first.
    pub fn value(&mut self) -> Vec<u8> {
        let most = match self.below(100) {
            0 => 10_000,
            1..10 => 1,
            _ => 60,
        };
        vec![self.below(256) as u8; self.below(most)]
    }
}
