//! A stand-in for the trait file, which is not among the sources: the methods that the three
//! files implement. A method that one of them leaves to the trait's default panics here, so no
//! recorded answer can rest on a default.

pub trait IndexSet: Sized {
    type Iter<'a>: Iterator<Item = usize>
    where
        Self: 'a;

    fn new() -> Self;
    fn insert(&mut self, index: usize) -> bool;
    fn remove(&mut self, index: usize) -> bool;
    fn contains(&self, index: usize) -> bool;
    fn toggle(&mut self, index: usize);
    fn xor_assign(&mut self, other: &Self);
    fn iter(&self) -> Self::Iter<'_>;
    fn is_empty(&self) -> bool;
    fn len(&self) -> usize;
    fn clear(&mut self);
    fn intersection_count(&self, other: &Self) -> usize;
    fn xor_intersection_into(&self, other: &Self, target: &mut Self);
    fn xor_symmetric_difference_into(&self, other: &Self, target: &mut Self);

    fn with_capacity(_max_index: usize) -> Self {
        unimplemented!("the default of with_capacity stands in the missing trait file")
    }

    fn toggle_unchecked(&mut self, _index: usize) {
        unimplemented!("the default of toggle_unchecked stands in the missing trait file")
    }

    fn take_clearing(&mut self) -> Self {
        unimplemented!("the default of take_clearing stands in the missing trait file")
    }

    fn set_single(&mut self, _index: usize) {
        unimplemented!("the default of set_single stands in the missing trait file")
    }
}
