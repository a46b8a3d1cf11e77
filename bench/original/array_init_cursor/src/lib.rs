//! A stand-in for the crate `array-init-cursor`, where cargo can't get it: what planus calls of it, written anew.
use core::mem::MaybeUninit;

/// A not yet written stretch of exactly `N` places.
#[must_use]
pub struct Cursor<'a, T, const N: usize> {
    places: &'a mut [MaybeUninit<T>; N],
}

impl<'a, T, const N: usize> Cursor<'a, T, N> {
    pub fn new(places: &'a mut [MaybeUninit<T>; N]) -> Self {
        Self { places }
    }

    /// The same cursor under another name of its size; stops where the sizes differ.
    pub fn assert_size<const M: usize>(self) -> Cursor<'a, T, M> {
        let places: &'a mut [MaybeUninit<T>] = self.places;
        let places: &'a mut [MaybeUninit<T>; M] = match places.try_into() {
            Ok(places) => places,
            Err(_) => panic!("cursor of {N} places used as one of {M}"),
        };
        Cursor { places }
    }

    /// Writes all places.
    pub fn finish(self, values: [T; N]) {
        for (place, value) in self.places.iter_mut().zip(values) {
            place.write(value);
        }
    }

    /// The first `L` and the last `R` places; stops where `L + R != N`.
    pub fn split<const L: usize, const R: usize>(self) -> (Cursor<'a, T, L>, Cursor<'a, T, R>) {
        assert_eq!(L + R, N);
        let (left, right) = self.places.split_at_mut(L);
        (
            Cursor { places: left.try_into().unwrap_or_else(|_| unreachable!()) },
            Cursor { places: right.try_into().unwrap_or_else(|_| unreachable!()) },
        )
    }
}
