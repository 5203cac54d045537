//! The words of the language: keys, values and lists.

use std::borrow::Borrow;
use std::fmt;

/// A key. Two keys are equal if their ids are, so that the mark shows which of them is stored.
#[derive(Clone, Copy)]
pub struct Key {
    pub id: u8,
    pub mark: char,
}

impl PartialEq for Key {
    fn eq(&self, other: &Self) -> bool {
        self.id == other.id
    }
}

impl Eq for Key {}

impl fmt::Display for Key {
    fn fmt(&self, f: &mut fmt::Formatter<'_>) -> fmt::Result {
        write!(f, "{}{}", self.id, self.mark)
    }
}

/// A pair of a map, or an item of a set, which has no value.
#[derive(Clone, Copy, PartialEq)]
pub struct Stored {
    pub key: Key,
    pub value: Option<i32>,
}

impl fmt::Display for Stored {
    fn fmt(&self, f: &mut fmt::Formatter<'_>) -> fmt::Result {
        match self.value {
            Some(value) => write!(f, "{}:{value}", self.key),
            None => write!(f, "{}", self.key),
        }
    }
}

impl From<Key> for Stored {
    fn from(key: Key) -> Self {
        Stored { key, value: None }
    }
}

impl<K: Borrow<Key>, V: Borrow<i32>> From<(K, V)> for Stored {
    fn from((key, value): (K, V)) -> Self {
        Stored { key: *key.borrow(), value: Some(*value.borrow()) }
    }
}

pub fn number(word: &str) -> i32 {
    word.parse().expect("a number")
}

pub fn key(word: &str) -> Key {
    let (id, mark) = word.split_at(word.len() - 1);
    Key {
        id: id.parse().expect("an id"),
        mark: mark.parse().expect("a mark"),
    }
}

pub fn pair(word: &str) -> (Key, i32) {
    let (first, second) = word.split_once(':').expect("a pair");
    (key(first), number(second))
}

/// The word of an optional answer.
pub fn optional(answer: Option<impl fmt::Display>) -> String {
    match answer {
        Some(some) => format!("some {some}"),
        None => "none".into(),
    }
}

/// The words of a list, which is `-` if it is empty.
pub fn list<T: fmt::Display>(items: &[T]) -> String {
    if items.is_empty() {
        return "-".into();
    }
    items.iter().map(T::to_string).collect::<Vec<_>>().join(" ")
}

/// Pairs or items, by their ids.
pub fn by_id<T: Into<Stored>>(items: impl IntoIterator<Item = T>) -> Vec<Stored> {
    let mut stored: Vec<Stored> = items.into_iter().map(T::into).collect();
    stored.sort_by_key(|it| it.key.id);
    stored
}
