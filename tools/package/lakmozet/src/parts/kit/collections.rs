//! Maps and sets that say when there is no memory: sorted pieces of a sorted list.
use super::alloc::{AllocError, Global};
use ::alloc::vec::Vec;
use core::borrow::Borrow;

/// How many entries a piece has at most.
const MOST: usize = 128;

/// Keys in order, each with a value. The pieces are never empty.
pub struct BTreeMap<K, V> {
    pieces: Vec<Vec<(K, V)>>,
}

fn insert_at<T>(items: &mut Vec<T>, at: usize, item: T) -> Result<(), AllocError> {
    items.try_reserve(1).map_err(|_| AllocError)?;
    items.insert(at, item);
    Ok(())
}

impl<K: Ord, V> BTreeMap<K, V> {
    pub fn new(_: Global) -> BTreeMap<K, V> {
        BTreeMap { pieces: Vec::new() }
    }

    // The piece and the place in it where a key is, or would be.
    fn find<Q: Ord + ?Sized>(&self, key: &Q) -> (usize, Result<usize, usize>)
    where
        K: Borrow<Q>,
    {
        let behind = self
            .pieces
            .partition_point(|piece| piece[0].0.borrow() <= key);
        let p = behind.saturating_sub(1);
        match self.pieces.get(p) {
            Some(piece) => (p, piece.binary_search_by(|entry| entry.0.borrow().cmp(key))),
            None => (0, Err(0)),
        }
    }

    pub fn insert(&mut self, key: K, value: V) -> Result<Option<V>, AllocError> {
        let (p, found) = self.find(&key);
        let at = match found {
            Ok(at) => return Ok(Some(core::mem::replace(&mut self.pieces[p][at].1, value))),
            Err(at) => at,
        };
        if self.pieces.is_empty() {
            insert_at(&mut self.pieces, 0, Vec::new())?;
            return match insert_at(&mut self.pieces[0], 0, (key, value)) {
                Ok(()) => Ok(None),
                Err(AllocError) => {
                    self.pieces.clear();
                    Err(AllocError)
                }
            };
        }
        if self.pieces[p].len() < MOST {
            insert_at(&mut self.pieces[p], at, (key, value))?;
            return Ok(None);
        }
        let mut upper = Vec::new();
        upper.try_reserve_exact(MOST).map_err(|_| AllocError)?;
        self.pieces.try_reserve(1).map_err(|_| AllocError)?;
        upper.extend(self.pieces[p].drain(MOST / 2..));
        if at <= MOST / 2 {
            self.pieces[p].insert(at, (key, value));
        } else {
            upper.insert(at - MOST / 2, (key, value));
        }
        self.pieces.insert(p + 1, upper);
        Ok(None)
    }

    pub fn get<Q: Ord + ?Sized>(&self, key: &Q) -> Option<&V>
    where
        K: Borrow<Q>,
    {
        match self.find(key) {
            (p, Ok(at)) => Some(&self.pieces[p][at].1),
            _ => None,
        }
    }

    pub fn get_mut<Q: Ord + ?Sized>(&mut self, key: &Q) -> Option<&mut V>
    where
        K: Borrow<Q>,
    {
        match self.find(key) {
            (p, Ok(at)) => Some(&mut self.pieces[p][at].1),
            _ => None,
        }
    }

    pub fn keys(&self) -> impl Iterator<Item = &K> {
        self.pieces.iter().flatten().map(|entry| &entry.0)
    }
}

impl<K, V> IntoIterator for BTreeMap<K, V> {
    type Item = (K, V);
    type IntoIter = core::iter::Flatten<::alloc::vec::IntoIter<Vec<(K, V)>>>;

    fn into_iter(self) -> Self::IntoIter {
        self.pieces.into_iter().flatten()
    }
}

/// Items in order.
pub struct BTreeSet<T>(BTreeMap<T, ()>);

impl<T: Ord> BTreeSet<T> {
    pub fn new(alloc: Global) -> BTreeSet<T> {
        BTreeSet(BTreeMap::new(alloc))
    }

    pub fn insert(&mut self, item: T) -> Result<bool, AllocError> {
        Ok(self.0.insert(item, ())?.is_none())
    }

    pub fn contains(&self, item: &T) -> bool {
        self.0.get(item).is_some()
    }
}
