//! Stands in for the crate keyed_priority_queue: a binary heap, greatest
//! priority on top, with an index from key to position, so that push, change
//! and removal by key take logarithmic time as in the original.

use std::{collections::HashMap, hash::Hash};

#[derive(Debug)]
pub struct KeyedPriorityQueue<K, P> {
    heap: Vec<(K, P)>,
    position: HashMap<K, usize>,
}

impl<K, P> Default for KeyedPriorityQueue<K, P> {
    fn default() -> Self {
        Self { heap: Vec::new(), position: HashMap::new() }
    }
}

impl<K: Hash + Eq + Clone, P: Ord> KeyedPriorityQueue<K, P> {
    /// Sets the key's priority and gives back the one it had.
    pub fn push(&mut self, key: K, priority: P) -> Option<P> {
        if let Some(&at) = self.position.get(&key) {
            let old = std::mem::replace(&mut self.heap[at].1, priority);
            self.restore(at);
            return Some(old);
        }
        let at = self.heap.len();
        self.position.insert(key.clone(), at);
        self.heap.push((key, priority));
        self.up(at);
        None
    }

    pub fn peek(&self) -> Option<(&K, &P)> {
        self.heap.first().map(|(key, priority)| (key, priority))
    }

    pub fn remove(&mut self, key: &K) -> Option<P> {
        let at = self.position.remove(key)?;
        let (_, priority) = self.heap.swap_remove(at);
        if at < self.heap.len() {
            self.note(at);
            self.restore(at);
        }
        Some(priority)
    }

    pub fn get_priority(&self, key: &K) -> Option<&P> {
        self.position.get(key).map(|&at| &self.heap[at].1)
    }

    pub fn len(&self) -> usize {
        self.heap.len()
    }

    pub fn is_empty(&self) -> bool {
        self.heap.is_empty()
    }

    fn note(&mut self, at: usize) {
        if let Some(position) = self.position.get_mut(&self.heap[at].0) {
            *position = at;
        }
    }

    fn swap(&mut self, a: usize, b: usize) {
        self.heap.swap(a, b);
        self.note(a);
        self.note(b);
    }

    fn restore(&mut self, at: usize) {
        let at = self.up(at);
        self.down(at);
    }

    fn up(&mut self, mut at: usize) -> usize {
        while at > 0 {
            let parent = (at - 1) / 2;
            if self.heap[at].1 <= self.heap[parent].1 {
                break;
            }
            self.swap(at, parent);
            at = parent;
        }
        at
    }

    fn down(&mut self, mut at: usize) {
        loop {
            let left = 2 * at + 1;
            if left >= self.heap.len() {
                return;
            }
            let right = left + 1;
            let child = if right < self.heap.len() && self.heap[right].1 > self.heap[left].1 { right } else { left };
            if self.heap[child].1 <= self.heap[at].1 {
                return;
            }
            self.swap(at, child);
            at = child;
        }
    }
}
