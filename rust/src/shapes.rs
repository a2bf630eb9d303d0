//! Shapes that wrappers of the archive's functions share: a struct with the memory that it describes, records as columns, and prices
//! that are each an answer of their own.

use crate::{accepted, Price, Refusal};

/// A struct of the archive's with the memory that it describes. Both are handed over, copied and kept together, since neither means
/// anything without the other; a part that is shown is borrowed, so that none outlives a change.
#[derive(Clone)]
pub(crate) struct Kept<S, const COUNT: usize> {
    state: S,
    memory: Box<[u64; COUNT]>,
}

impl<S: Copy, const COUNT: usize> Kept<S, COUNT> {
    /// The struct beside zeros.
    pub(crate) fn new(state: S) -> Self {
        let memory = Box::new([0; COUNT]);
        Kept { state, memory }
    }

    /// A call that may change both: it answers a number, and the struct after it.
    pub(crate) fn change(
        &mut self,
        call: impl FnOnce(S, &mut [u64; COUNT]) -> (u64, S),
    ) -> Result<(), Refusal> {
        let (number, after) = call(self.state, &mut self.memory);
        self.state = after;
        accepted(number, ())
    }

    /// A call that changes nothing.
    pub(crate) fn ask<T>(&self, call: impl FnOnce(S, &[u64; COUNT]) -> T) -> T {
        call(self.state, &self.memory)
    }

    /// A part of the memory; `None` where it has none such.
    pub(crate) fn part(&self, start: usize, count: usize) -> Option<&[u64]> {
        self.memory.get(start..start.checked_add(count)?)
    }
}

/// One field of every record. Columns of the same records have one length.
pub(crate) fn column<T, N>(records: &[T], field: impl Fn(&T) -> N) -> Vec<N> {
    records.iter().map(field).collect()
}

/// Prices whose numbers, values and bounds stand in columns, each priced or refused by itself; as many as the shortest column has.
pub(crate) fn prices_of(
    numbers: &[u64],
    values: &[u64],
    bounds: &[u64],
) -> Vec<Result<Price, Refusal>> {
    let priced = values
        .iter()
        .zip(bounds)
        .map(|(&value, &bound)| Price { value, bound });
    numbers
        .iter()
        .zip(priced)
        .map(|(&number, price)| accepted(number, price))
        .collect()
}

#[cfg(test)]
mod tests {
    use super::*;

    #[derive(Clone, Copy)]
    struct Ring {
        used: usize,
    }

    fn put(ring: Ring, memory: &mut [u64; 3], value: u64) -> (u64, Ring) {
        if value > 9 {
            return (10, ring);
        }
        memory[ring.used] = value;
        let used = (ring.used + 1) % 3;
        (0, Ring { used })
    }

    fn shown(kept: &Kept<Ring, 3>) -> (usize, Vec<u64>) {
        kept.ask(|ring, memory| (ring.used, memory.to_vec()))
    }

    #[test]
    fn struct_and_memory_change_together() {
        let mut kept = Kept::<Ring, 3>::new(Ring { used: 0 });
        for value in [4, 5] {
            kept.change(|ring, memory| put(ring, memory, value))
                .unwrap();
        }
        let before = kept.clone();
        let refused = kept.change(|ring, memory| put(ring, memory, 10));
        assert_eq!(refused, Err(Refusal::FLOW));
        assert_eq!(shown(&kept), (2, vec![4, 5, 0]));
        for value in [6, 7] {
            kept.change(|ring, memory| put(ring, memory, value))
                .unwrap();
        }
        assert_eq!(shown(&kept), (1, vec![7, 5, 6]));
        assert_eq!(shown(&before), (2, vec![4, 5, 0]));
    }

    #[test]
    fn parts_are_those_of_the_memory() {
        let kept = Kept::<Ring, 3>::new(Ring { used: 0 });
        assert_eq!(kept.part(1, 2), Some(&[0, 0][..]));
        assert_eq!(kept.part(3, 0), Some(&[][..]));
        assert_eq!(kept.part(2, 2), None);
        assert_eq!(kept.part(1, usize::MAX), None);
    }

    #[test]
    fn columns_have_one_length() {
        let bands = [(1u64, 2u8), (3, 4)];
        assert_eq!(column(&bands, |band| band.0), [1, 3]);
        assert_eq!(column(&bands, |band| band.1), [2, 4]);
    }

    #[test]
    fn each_price_is_an_answer() {
        let prices = prices_of(&[0, 11, 0, 0], &[5, 0, 7], &[1, 0, 2]);
        let priced = |value, bound| Ok(Price { value, bound });
        assert_eq!(prices, [priced(5, 1), Err(Refusal::OPTION), priced(7, 2)]);
    }
}
