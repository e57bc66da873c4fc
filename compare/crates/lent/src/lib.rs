//! What an export is lent to write in, between guards that it must not reach.

/// Elements before and after what is lent; an odd number, so that rows are not aligned.
const GUARD: usize = 41;

pub struct Lent<T> {
    store: Vec<T>,
}

/// What the store holds before a call: never a label's code.
fn filler<T: From<u8>>(place: usize) -> T {
    T::from(200 + (place % 50) as u8)
}

impl<T: Copy + PartialEq + From<u8>> Lent<T> {
    pub fn new(len: usize) -> Lent<T> {
        Lent {
            store: (0..len + 2 * GUARD).map(filler).collect(),
        }
    }

    pub fn with(elements: &[T]) -> Lent<T> {
        let mut lent = Lent::new(elements.len());
        lent.elements().copy_from_slice(elements);
        lent
    }

    pub fn elements(&mut self) -> &mut [T] {
        let end = self.store.len() - GUARD;
        &mut self.store[GUARD..end]
    }

    /// An error unless it begins with these elements and nothing else was written. The text for the
    /// first place at which it does not is made of what was written.
    pub fn check(
        &self,
        expected: &[T],
        wrong: impl FnOnce(usize, &[T]) -> String,
    ) -> Result<(), String> {
        let (before, rest) = self.store.split_at(GUARD);
        let (written, after) = rest.split_at(expected.len());
        if let Some(at) = first_difference(written, expected) {
            return Err(wrong(at, written));
        }
        let start = GUARD + expected.len();
        let changed = |elements: &[T], from: usize| {
            let mut elements = elements.iter().enumerate();
            elements.position(|(i, element)| *element != filler(from + i))
        };
        if let Some(at) = changed(after, start) {
            return Err(format!("place {at} past what it may write was written"));
        }
        if changed(before, 0).is_some() {
            return Err("a place before what was lent was written".to_string());
        }
        Ok(())
    }
}

fn first_difference<T: PartialEq>(a: &[T], b: &[T]) -> Option<usize> {
    if a == b {
        return None;
    }
    a.iter().zip(b).position(|(x, y)| x != y)
}
