//! Memory lent to both implementations, filled beforehand and guarded.

const GUARD: usize = 64;

/// Two buffers with equal bytes; a call is lent the middle of its own.
pub struct Lent {
    ours: Vec<u8>,
    theirs: Vec<u8>,
}

impl Lent {
    /// `fill` decides the bytes, so that no constant can pass for untouched.
    pub fn new(length: usize, fill: u8) -> Self {
        let bytes: Vec<u8> =
            (0..length + 2 * GUARD).map(|at| (at as u8).wrapping_mul(167) ^ fill).collect();
        Self { ours: bytes.clone(), theirs: bytes }
    }

    pub fn ours(&mut self) -> &mut [u8] {
        middle(&mut self.ours)
    }

    pub fn theirs(&mut self) -> &mut [u8] {
        middle(&mut self.theirs)
    }

    /// The first byte that differs, in words; empty if none does. This
    /// implementation touches nothing on a refusal, which its tests show.
    pub fn difference(&self) -> String {
        let differs = self.ours.iter().zip(&self.theirs).position(|(ours, theirs)| ours != theirs);
        differs.map_or(String::new(), |at| {
            let place = at as i64 - GUARD as i64;
            let (ours, theirs) = (self.ours[at], self.theirs[at]);
            format!("lent byte {place}: {ours:02x} here, {theirs:02x} in the other one")
        })
    }
}

fn middle(bytes: &mut [u8]) -> &mut [u8] {
    let end = bytes.len() - GUARD;
    &mut bytes[GUARD..end]
}
