//! Lists that are lent to a call, between guard words.

use comparison::common::Random;

const MOST_GUARDS: usize = 8;

/// A list with guard words before and behind it. Their count differs from list to list, and so does the list's alignment.
pub struct Lent<T> {
    words: Vec<T>,
    front: usize,
    length: usize,
    guards: Vec<T>,
}

impl<T: Copy + PartialEq + From<u8>> Lent<T> {
    pub fn new(random: &mut Random, list: &[T]) -> Self {
        let front = 1 + random.below(MOST_GUARDS);
        let guards: Vec<T> = (0..front + MOST_GUARDS)
            .map(|_| T::from(random.next() as u8))
            .collect();
        let words = [&guards[..front], list, &guards[front..]].concat();
        Lent {
            words,
            front,
            length: list.len(),
            guards,
        }
    }

    pub fn list(&self) -> &[T] {
        &self.words[self.front..self.front + self.length]
    }

    pub fn list_mut(&mut self) -> &mut [T] {
        &mut self.words[self.front..self.front + self.length]
    }

    /// Whether the guards stand as they stood and the whole list is the expected one.
    pub fn check(&self, name: &str, expected: &[T]) -> Result<(), String> {
        let behind = self.front + self.length;
        if self.words[..self.front] != self.guards[..self.front] {
            return Err(format!("a word before the list {name} changed"));
        }
        if self.words[behind..] != self.guards[self.front..] {
            return Err(format!("a word behind the list {name} changed"));
        }
        match self.list().iter().zip(expected).position(|(x, y)| x != y) {
            Some(place) => Err(format!("entry {place} of the list {name} differs")),
            None => Ok(()),
        }
    }
}
