//! The last values made, for a caller who asks again: the comparison makes one call with several outputs.
use std::cell::RefCell;
use std::collections::HashMap;
use std::hash::Hash;
use std::rc::Rc;

/// At most so many are kept; then they go.
pub(crate) struct Kept<K, V>(RefCell<HashMap<K, Rc<V>>>, usize);

impl<K: Eq + Hash, V> Kept<K, V> {
    pub(crate) fn at_most(many: usize) -> Kept<K, V> {
        Kept(RefCell::new(HashMap::new()), many)
    }

    pub(crate) fn of(&self, key: K, make: impl FnOnce() -> V) -> Rc<V> {
        let mut kept = self.0.borrow_mut();
        if let Some(value) = kept.get(&key) {
            return value.clone();
        }
        if kept.len() == self.1 {
            kept.clear();
        }
        let value = Rc::new(make());
        kept.insert(key, value.clone());
        value
    }
}
