//! Lent buffers between guards, so that every byte and word that a call writes is seen.

use std::fmt;

/// Words on either side of a lent buffer, which no call may change.
const GUARD_LENGTH: usize = 8;
pub const GUARD_BYTE: u8 = 0xC5;
pub const GUARD_WORD: u32 = 0xC5C5_C5C5;

/// A buffer between guards.
#[derive(Clone, PartialEq)]
pub struct Guarded<T>(pub Vec<T>);

impl<T: Copy> Guarded<T> {
    pub fn new(content: &[T], guard: T) -> Guarded<T> {
        let mut all = vec![guard; GUARD_LENGTH];
        all.extend_from_slice(content);
        all.extend([guard; GUARD_LENGTH]);
        Guarded(all)
    }

    pub fn inner(&self) -> &[T] {
        &self.0[GUARD_LENGTH..self.0.len() - GUARD_LENGTH]
    }

    pub fn inner_mut(&mut self) -> &mut [T] {
        let end = self.0.len() - GUARD_LENGTH;
        &mut self.0[GUARD_LENGTH..end]
    }
}

/// The first difference of two buffers. Places below 0 and from the length on are those of guards.
pub fn item_difference<T: Copy + PartialEq + fmt::UpperHex>(
    name: &str,
    a: &Guarded<T>,
    b: &Guarded<T>,
) -> Option<String> {
    let at = (0..a.0.len()).find(|&i| a.0[i] != b.0[i])?;
    let place = at as i64 - GUARD_LENGTH as i64;
    let (item, digits) = if size_of::<T>() == 1 { ("byte", 2) } else { ("word", 8) };
    Some(format!("{name}, {item} {place} of {}: {:0digits$X} and {:0digits$X}", a.inner().len(), a.0[at], b.0[at]))
}
