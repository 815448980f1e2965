//! Octets that a call is lent.

/// What the octets hold before a call, and the guards about the lent ones after it too.
const BEFORE: u8 = 0xa5;
const GUARD: usize = 16;

/// Lent octets and the guards about them.
pub struct Lent(Vec<u8>);

impl Lent {
    pub fn new(octets: usize) -> Self {
        Self(vec![BEFORE; octets + 2 * GUARD])
    }

    pub fn octets(&mut self) -> &mut [u8] {
        let end = self.0.len() - GUARD;
        &mut self.0[GUARD..end]
    }

    /// Whether these stand at the front, and all else is as it was.
    pub fn holds(&self, written: &[u8]) -> bool {
        let (before, rest) = self.0.split_at(GUARD);
        rest.starts_with(written) && before.iter().chain(&rest[written.len()..]).all(|octet| *octet == BEFORE)
    }

    /// All octets, the guards too.
    pub fn all(&self) -> &[u8] {
        &self.0
    }
}
