//! Stand-in for the crate itertools: the two methods that the oracle uses.

use std::cmp::Ordering;

pub trait Itertools: Iterator {
    fn collect_vec(self) -> Vec<Self::Item>
    where
        Self: Sized,
    {
        self.collect()
    }

    /// Sorts all items; stable, as the crate's method of this name is.
    fn sorted_by<F>(self, cmp: F) -> std::vec::IntoIter<Self::Item>
    where
        Self: Sized,
        F: FnMut(&Self::Item, &Self::Item) -> Ordering,
    {
        let mut items: Vec<_> = self.collect();
        items.sort_by(cmp);
        items.into_iter()
    }
}

impl<T: Iterator> Itertools for T {}
