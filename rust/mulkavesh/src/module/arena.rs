//! Ids, and items by their ids.

use std::cmp::Ordering;
use std::fmt;
use std::hash::{Hash, Hasher};
use std::marker::PhantomData;

/// The id of an item of one kind. That of an item of the input is its index there, imported ones
/// first; what is added has the next ones, and none is used again.
pub struct Id<T>(u32, PhantomData<fn() -> T>);

impl<T> Id<T> {
    /// The id of this number.
    pub fn at(index: u32) -> Self {
        Id(index, PhantomData)
    }

    /// Its number.
    pub fn index(self) -> u32 {
        self.0
    }

    /// The place of the item among those of its kind.
    pub(super) fn place(self) -> usize {
        self.0 as usize
    }
}

impl<T> Clone for Id<T> {
    fn clone(&self) -> Self {
        *self
    }
}

impl<T> Copy for Id<T> {}

impl<T> PartialEq for Id<T> {
    fn eq(&self, other: &Self) -> bool {
        self.0 == other.0
    }
}

impl<T> Eq for Id<T> {}

impl<T> PartialOrd for Id<T> {
    fn partial_cmp(&self, other: &Self) -> Option<Ordering> {
        Some(self.cmp(other))
    }
}

impl<T> Ord for Id<T> {
    fn cmp(&self, other: &Self) -> Ordering {
        self.0.cmp(&other.0)
    }
}

impl<T> Hash for Id<T> {
    fn hash<H: Hasher>(&self, state: &mut H) {
        self.0.hash(state);
    }
}

impl<T> fmt::Debug for Id<T> {
    fn fmt(&self, formatter: &mut fmt::Formatter<'_>) -> fmt::Result {
        write!(formatter, "{}", self.0)
    }
}

/// The items of one kind, by their ids.
#[derive(Debug, Clone)]
pub struct Arena<T>(pub(super) Vec<Option<T>>);

impl<T> Default for Arena<T> {
    fn default() -> Self {
        Arena(Vec::new())
    }
}

impl<T> Arena<T> {
    /// The id of the item that is put next.
    pub(super) fn next_id(&self) -> Id<T> {
        Id::at(u32::try_from(self.0.len()).expect("fewer than 2^32 items"))
    }

    pub(super) fn put(&mut self, item: T) -> Id<T> {
        let id = self.next_id();
        self.0.push(Some(item));
        id
    }

    /// Takes an item away, where it is there.
    pub(super) fn take(&mut self, id: Id<T>) -> Option<T> {
        self.0.get_mut(id.place())?.take()
    }

    /// The item of an id, where it is there.
    pub fn try_get(&self, id: Id<T>) -> Option<&T> {
        self.0.get(id.place())?.as_ref()
    }

    /// The item of an id.
    ///
    /// # Panics
    ///
    /// Where it isn't there.
    pub fn get(&self, id: Id<T>) -> &T {
        self.try_get(id).expect("an item that is there")
    }

    /// The item of an id, to be written.
    ///
    /// # Panics
    ///
    /// Where it isn't there.
    pub fn get_mut(&mut self, id: Id<T>) -> &mut T {
        let found = self.0.get_mut(id.place()).and_then(Option::as_mut);
        found.expect("an item that is there")
    }

    /// The items with their ids, by rising id.
    pub fn iter(&self) -> impl Iterator<Item = (Id<T>, &T)> {
        let all = self.0.iter().enumerate();
        all.filter_map(|(at, item)| Some((Id::at(at as u32), item.as_ref()?)))
    }

    /// The items with their ids, to be written.
    pub fn iter_mut(&mut self) -> impl Iterator<Item = (Id<T>, &mut T)> {
        let all = self.0.iter_mut().enumerate();
        all.filter_map(|(at, item)| Some((Id::at(at as u32), item.as_mut()?)))
    }

    /// The ids of the items that this holds of.
    pub fn ids_where(&self, holds: impl Fn(&T) -> bool) -> Vec<Id<T>> {
        let found = self.iter().filter(|(_, item)| holds(item));
        found.map(|(id, _)| id).collect()
    }

    /// How many items there are.
    pub fn len(&self) -> usize {
        self.iter().count()
    }

    /// Whether there is none.
    pub fn is_empty(&self) -> bool {
        self.iter().next().is_none()
    }
}
