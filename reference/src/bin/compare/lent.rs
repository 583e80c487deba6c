//! Memory that is lent to the proved library, between guard bytes.

use glykorant_reference::random::Random;

/// The fewest guard bytes on each side.
const GUARD: usize = 64;

/// Lent bytes, with what all of the memory must hold after the next call.
pub struct Lent {
    memory: Vec<u8>,
    expected: Vec<u8>,
    start: usize,
    length: usize,
}

impl Lent {
    /// The bytes between guards of any content, at any alignment.
    pub fn new(random: &mut Random, bytes: &[u8]) -> Lent {
        let start = GUARD + random.below(8);
        let length = bytes.len();
        let mut memory = vec![0; start + length + GUARD];
        fill(random, &mut memory[..start]);
        memory[start..start + length].copy_from_slice(bytes);
        fill(random, &mut memory[start + length..]);
        Lent {
            expected: memory.clone(),
            memory,
            start,
            length,
        }
    }

    /// Lent bytes of any content.
    pub fn any(random: &mut Random, length: usize) -> Lent {
        let mut bytes = vec![0; length];
        fill(random, &mut bytes);
        Lent::new(random, &bytes)
    }

    pub fn bytes(&self) -> &[u8] {
        &self.memory[self.start..self.start + self.length]
    }

    pub fn bytes_mut(&mut self) -> &mut [u8] {
        &mut self.memory[self.start..self.start + self.length]
    }

    /// The first of the lent bytes must hold these after the call.
    pub fn expect(&mut self, bytes: &[u8]) {
        assert!(bytes.len() <= self.length);
        self.expected[self.start..self.start + bytes.len()].copy_from_slice(bytes);
    }

    /// Every lent byte and every guard byte is as expected.
    pub fn check(&self, what: &str) -> Result<(), String> {
        if self.memory == self.expected {
            return Ok(());
        }
        let differs = |&at: &usize| self.memory[at] != self.expected[at];
        let places: Vec<usize> = (0..self.memory.len()).filter(differs).collect();
        let first = places[0] as i64 - self.start as i64;
        Err(format!(
            "{what}: {} bytes differ, the first at {first} of {}: {} and not {}",
            places.len(),
            self.length,
            self.memory[places[0]],
            self.expected[places[0]]
        ))
    }
}

fn fill(random: &mut Random, bytes: &mut [u8]) {
    for chunk in bytes.chunks_mut(8) {
        let word = random.word().to_le_bytes();
        chunk.copy_from_slice(&word[..chunk.len()]);
    }
}
