//! Stands in for the crate `cached`: a function's last answers by its arguments, the least recently used dropped first. Arguments are
//! compared by `Eq`, so that 0 and -0 share an answer, as there.
use std::collections::HashMap;
use std::hash::Hash;
use std::sync::{Mutex, PoisonError};

pub mod macros {
    pub use cached_macros::cached;
}

pub struct Cache<K, V> {
    max_size: usize,
    kept: Mutex<Kept<K, V>>,
}

/// Answers with the turn of their last use.
struct Kept<K, V> {
    answers: HashMap<K, (V, u64)>,
    turn: u64,
}

impl<K: Hash + Eq + Clone, V: Clone> Cache<K, V> {
    pub fn new(max_size: usize) -> Self {
        let kept = Kept {
            answers: HashMap::new(),
            turn: 0,
        };
        Self {
            max_size,
            kept: Mutex::new(kept),
        }
    }

    /// The kept answer, or the one worked out now. Nothing is kept where the work panics.
    pub fn get_or(&self, key: K, work: impl FnOnce(K) -> V) -> V {
        if let Some(answer) = self.get(&key) {
            return answer;
        }
        let answer = work(key.clone());
        self.keep(key, answer.clone());
        answer
    }

    fn get(&self, key: &K) -> Option<V> {
        let mut kept = self.kept.lock().unwrap_or_else(PoisonError::into_inner);
        kept.turn += 1;
        let turn = kept.turn;
        let (answer, used) = kept.answers.get_mut(key)?;
        *used = turn;
        Some(answer.clone())
    }

    fn keep(&self, key: K, answer: V) {
        let mut kept = self.kept.lock().unwrap_or_else(PoisonError::into_inner);
        if kept.answers.len() >= self.max_size {
            let oldest = kept.answers.iter().min_by_key(|(_, (_, used))| *used);
            if let Some(oldest) = oldest.map(|(key, _)| key.clone()) {
                kept.answers.remove(&oldest);
            }
        }
        let turn = kept.turn;
        kept.answers.insert(key, (answer, turn));
    }
}
