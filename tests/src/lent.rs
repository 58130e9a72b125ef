//! Lists that are lent to a call, at any address, with bytes before and behind them that no call may touch.

use crate::random::Random;

const BEHIND: usize = 64;

/// A list and what stands before and behind it in memory.
#[derive(Clone, PartialEq, Eq)]
pub struct Lent {
    bytes: Vec<u8>,
    before: usize,
    length: usize,
}

impl Lent {
    /// A list of this length filled with a pattern.
    pub fn filled(random: &mut Random, length: usize) -> Lent {
        let start = random.next() as u8;
        let before = random.index(16);
        let all = before + length + BEHIND;
        let bytes = (0..all).map(|i| start.wrapping_add((i as u8).wrapping_mul(37))).collect();
        Lent { bytes, before, length }
    }

    /// A list of these bytes.
    pub fn of(random: &mut Random, list: &[u8]) -> Lent {
        let mut lent = Lent::filled(random, list.len());
        lent.list().copy_from_slice(list);
        lent
    }

    pub fn list(&mut self) -> &mut [u8] {
        &mut self.bytes[self.before..self.before + self.length]
    }

    pub fn view(&self) -> &[u8] {
        &self.bytes[self.before..self.before + self.length]
    }

    /// The first difference to another, for a message.
    pub fn difference(&self, other: &Lent) -> Option<String> {
        let at = self.bytes.iter().zip(&other.bytes).position(|(a, b)| a != b)?;
        let (model, archive) = (self.bytes[at], other.bytes[at]);
        let place = if at < self.before {
            format!("{} bytes before the list", self.before - at)
        } else if at >= self.before + self.length {
            format!("{} bytes behind the list's last", at - self.before - self.length + 1)
        } else {
            format!("byte {} (word {}) of {}", at - self.before, (at - self.before) / 8, self.length)
        };
        Some(format!("{place}: model {model}, archive {archive}"))
    }
}
