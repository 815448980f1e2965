//! Lent buffers with guards around them, and the views over their front.

use cleatmow::{Filled, InOctets};
use std::fmt::Display;

/// The octets on either side of the lent ones.
const GUARD: usize = 16;

/// Makes a call on `len` lent octets in the middle of more, over a pattern and over its complement, so that no stray
/// store goes unseen; holds its answer and every octet, lent or around, to those that `right` makes of the lent octets.
/// Answers both, the octets those of the second call.
pub fn compare(
    input: impl Display,
    len: usize,
    right: impl Fn(&[u8]) -> (u32, Vec<u8>),
    call: impl Fn(&mut [u8]) -> u32,
) -> (u32, Vec<u8>) {
    let lent = GUARD..GUARD + len;
    let compared = [0, 0xFF].map(|flip| {
        let mut all: Vec<u8> = (0..len + 2 * GUARD).map(|place| (place as u8).wrapping_mul(37) ^ flip).collect();
        let mut expected = all.clone();
        let (answer, left) = right(&all[lent.clone()]);
        expected[lent.clone()].copy_from_slice(&left);
        let number = call(&mut all[lent.clone()]);
        assert!(
            (number, &all) == (answer, &expected),
            "{input}, {len} octets lent: {number} for {answer}, first other octet (of {GUARD} before the lent) {:?}",
            all.iter().zip(&expected).position(|(left, right)| left != right)
        );
        (answer, left)
    });
    let [_, second] = compared;
    second
}

/// Holds a view to where it should be: so many places in the octets from the front on, and none past them.
pub fn hold_view<T: InOctets>(view: Filled<T>, front: *const u8, count: usize) {
    assert_eq!((view.len(), view.iter().len(), view.is_empty()), (count, count, count == 0));
    assert_eq!((view.octets().as_ptr(), view.octets().len()), (front, count * T::OCTETS));
    assert!(view.get(count).is_none());
}
