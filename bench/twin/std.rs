//! Stands in for the kit's library in the plain copy: what may fail there when out of memory never does here.
use std::ops::{Deref, DerefMut, Index, IndexMut};
#[derive(Clone, Copy, Debug)]
pub struct Global;
#[derive(Clone, Copy, Debug)]
pub struct AllocError;
pub trait AllocFailed {}
#[derive(Debug)]
pub struct Vec<T>(pub std::vec::Vec<T>);
impl<T> Vec<T> {
    #[inline]
    pub fn new(_: Global) -> Self {
        Vec(std::vec::Vec::new())
    }
    #[inline]
    pub fn with_capacity(_: Global, n: usize) -> Result<Self, AllocError> {
        Ok(Vec(std::vec::Vec::with_capacity(n)))
    }
    #[inline]
    pub fn push(&mut self, x: T) -> Result<(), AllocError> {
        self.0.push(x);
        Ok(())
    }
    #[inline]
    pub fn capacity(&self) -> usize {
        self.0.capacity()
    }
    #[inline]
    pub fn reserve(&mut self, n: usize) -> Result<(), AllocError> {
        self.0.reserve(n);
        Ok(())
    }
    #[inline]
    pub fn insert(&mut self, i: usize, x: T) -> Result<(), AllocError> {
        self.0.insert(i, x);
        Ok(())
    }
    #[inline]
    pub fn extend_from_slice(&mut self, x: &[T]) -> Result<(), AllocError>
    where
        T: Clone,
    {
        self.0.extend_from_slice(x);
        Ok(())
    }
    pub fn repeated(_: Global, x: T, n: usize) -> Result<Self, AllocError>
    where
        T: Clone,
    {
        Ok(Vec(vec![x; n]))
    }
    pub fn from_array<const N: usize>(_: Global, x: [T; N]) -> Result<Self, AllocError> {
        Ok(Vec(x.into_iter().collect()))
    }
    pub fn from_slice(_: Global, x: &[T]) -> Result<Self, AllocError>
    where
        T: Clone,
    {
        Ok(Vec(x.to_vec()))
    }
    #[inline]
    pub fn allocator(&self) -> &Global {
        &Global
    }
    #[inline]
    pub fn as_slice(&self) -> &[T] {
        &self.0
    }
    #[inline]
    pub fn as_mut_slice(&mut self) -> &mut [T] {
        &mut self.0
    }
    #[inline]
    pub fn len(&self) -> usize {
        self.0.len()
    }
    #[inline]
    pub fn append(&mut self, o: &mut Vec<T>) -> Result<(), AllocError> {
        self.0.append(&mut o.0);
        Ok(())
    }
    #[inline]
    pub fn truncate(&mut self, n: usize) {
        self.0.truncate(n)
    }
    #[inline]
    pub fn clear(&mut self) {
        self.0.clear()
    }
    #[inline]
    pub fn pop(&mut self) -> Option<T> {
        self.0.pop()
    }
    #[inline]
    pub fn is_empty(&self) -> bool {
        self.0.is_empty()
    }
}
impl<T> Deref for Vec<T> {
    type Target = [T];
    #[inline]
    fn deref(&self) -> &[T] {
        &self.0
    }
}
impl<T> DerefMut for Vec<T> {
    #[inline]
    fn deref_mut(&mut self) -> &mut [T] {
        &mut self.0
    }
}
impl<T, I: std::slice::SliceIndex<[T]>> Index<I> for Vec<T> {
    type Output = I::Output;
    #[inline]
    fn index(&self, i: I) -> &I::Output {
        &self.0[i]
    }
}
impl<T, I: std::slice::SliceIndex<[T]>> IndexMut<I> for Vec<T> {
    #[inline]
    fn index_mut(&mut self, i: I) -> &mut I::Output {
        &mut self.0[i]
    }
}
impl<T> IntoIterator for Vec<T> {
    type Item = T;
    type IntoIter = std::vec::IntoIter<T>;
    fn into_iter(self) -> Self::IntoIter {
        self.0.into_iter()
    }
}
impl<'a, T> IntoIterator for &'a Vec<T> {
    type Item = &'a T;
    type IntoIter = std::slice::Iter<'a, T>;
    fn into_iter(self) -> Self::IntoIter {
        self.0.iter()
    }
}
impl<'a, T> IntoIterator for &'a mut Vec<T> {
    type Item = &'a mut T;
    type IntoIter = std::slice::IterMut<'a, T>;
    fn into_iter(self) -> Self::IntoIter {
        self.0.iter_mut()
    }
}
pub struct BTreeMap<K, V>(std::collections::BTreeMap<K, V>);
impl<K: Ord, V> BTreeMap<K, V> {
    pub fn new(_: Global) -> Self {
        BTreeMap(std::collections::BTreeMap::new())
    }
    pub fn get(&self, k: &K) -> Option<&V> {
        self.0.get(k)
    }
    pub fn insert(&mut self, k: K, v: V) -> Result<Option<V>, AllocError> {
        Ok(self.0.insert(k, v))
    }
}
pub struct Snapshot<T>(std::marker::PhantomData<T>);
impl<T> Snapshot<T> {
    pub fn of(_: &T) -> Self {
        Snapshot(std::marker::PhantomData)
    }
}
pub mod ledger {
    pub trait Ledger {}
    pub struct Blank;
    pub struct Brand;
    impl Ledger for Brand {}
    pub struct Book<L>(std::marker::PhantomData<L>);
    pub struct Share<L>(std::marker::PhantomData<L>);
    impl Blank {
        pub fn new(_: u32) -> Blank {
            Blank
        }
        #[inline]
        pub fn open<L: Ledger>(self) -> (Book<L>, Share<L>) {
            (Book(std::marker::PhantomData), Share(std::marker::PhantomData))
        }
    }
    impl<L> Book<L> {
        #[inline]
        pub fn add(&mut self, _: &mut Share<L>, _: u32) {}
    }
}
pub mod thread {
    /// The copy runs in one thread: what the program joins is done there one after the other.
    pub trait Threads {}
    pub fn join<R: Threads, A, B>(_: &R, a: impl FnOnce() -> A, b: impl FnOnce() -> B) -> (A, B) {
        (a(), b())
    }
}
/// What the kit's `Box::new` does.
pub fn boxed<T>(_: Global, x: T) -> Result<Box<T>, AllocError> {
    Ok(Box::new(x))
}
