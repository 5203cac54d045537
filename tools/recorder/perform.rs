//! Performs calls on the maps and sets of the Rust crate.

use crate::words::{by_id, key, list, number, optional, pair, Key, Stored};
use micromap::map::Entry;
use micromap::{Map, Set};
use std::panic::{self, AssertUnwindSafe};
use std::process;

const DONE: &str = "ok";
const REFUSED: &str = "refused";

pub type Numbers<const N: usize> = Map<Key, i32, N>;
pub type Keys<const N: usize> = Set<Key, N>;

/// A map, a set, or two of them.
pub trait Case {
    /// Performs a call, and returns its answer.
    fn answer(&mut self, words: &[&str]) -> String;

    /// Returns what each map or set holds, by the ids.
    fn contents(&self) -> Vec<Vec<Stored>>;
}

impl<const N: usize> Case for Numbers<N> {
    fn answer(&mut self, words: &[&str]) -> String {
        unless_refused(self, |map| {
            asked(map, words)
                .or_else(|| done(map, words))
                .unwrap_or_else(|| by_entry(map, words))
        })
    }

    fn contents(&self) -> Vec<Vec<Stored>> {
        vec![by_id(self)]
    }
}

impl<const N: usize> Case for Keys<N> {
    fn answer(&mut self, words: &[&str]) -> String {
        unless_refused(self, |set| on_set(set, words))
    }

    fn contents(&self) -> Vec<Vec<Stored>> {
        vec![by_id(self.iter().copied())]
    }
}

impl<A: Case, B: Case> Case for (A, B)
where
    (A, B): Both,
{
    fn answer(&mut self, words: &[&str]) -> String {
        match words {
            ["a", call @ ..] => self.0.answer(call),
            ["b", call @ ..] => self.1.answer(call),
            [call] => self.on_both(call),
            _ => unknown(words),
        }
    }

    fn contents(&self) -> Vec<Vec<Stored>> {
        [self.0.contents(), self.1.contents()].concat()
    }
}

/// Two maps or sets that a call may take together.
pub trait Both {
    fn on_both(&self, call: &str) -> String;
}

impl<const N: usize, const M: usize> Both for (Numbers<N>, Numbers<M>) {
    fn on_both(&self, call: &str) -> String {
        match call {
            "eq" => (self.0 == self.1).to_string(),
            _ => unknown(&[call]),
        }
    }
}

impl<const N: usize, const M: usize> Both for (Keys<N>, Keys<M>) {
    fn on_both(&self, call: &str) -> String {
        let (a, b) = self;
        let members = match call {
            "eq" => return (a == b).to_string(),
            "is_subset" => return a.is_subset(b).to_string(),
            "is_superset" => return a.is_superset(b).to_string(),
            "is_disjoint" => return a.is_disjoint(b).to_string(),
            "difference" => by_id(a.difference(b).copied()),
            "intersection" => by_id(a.intersection(b).copied()),
            "union" => by_id(a.union(b).copied()),
            "symmetric_difference" => by_id(a.symmetric_difference(b).copied()),
            "bitand" => by_id(a & b),
            "sub" => by_id(a - b),
            _ => unknown(&[call]),
        };
        list(&members)
    }
}

fn unknown(words: &[&str]) -> ! {
    eprintln!("there is no such call: {}", words.join(" "));
    process::exit(1)
}

/// The answer of a call on a map or a set, which stays as it was where the crate panics.
fn unless_refused<T: Clone>(subject: &mut T, call: impl FnOnce(&mut T) -> String) -> String {
    let before = subject.clone();
    let hook = panic::take_hook();
    panic::set_hook(Box::new(|_| ()));
    let answer = panic::catch_unwind(AssertUnwindSafe(|| call(subject)));
    panic::set_hook(hook);
    answer.unwrap_or_else(|_| {
        *subject = before;
        REFUSED.into()
    })
}

/// The calls on a map that answer what they find, but for those of an entry.
fn asked<const N: usize>(map: &mut Numbers<N>, words: &[&str]) -> Option<String> {
    Some(match *words {
        ["insert", k, v] => optional(map.insert(key(k), number(v))),
        ["insert_key_value", k, v] => optional(map.insert_key_value(key(k), number(v)).map(Stored::from)),
        ["checked_insert", k, v] => optional(map.checked_insert(key(k), number(v)).map(optional)),
        ["get", k] => optional(map.get(&key(k))),
        ["get_key_value", k] => optional(map.get_key_value(&key(k)).map(Stored::from)),
        ["contains_key", k] => map.contains_key(&key(k)).to_string(),
        ["get_mut", k, amount] => optional(map.get_mut(&key(k)).map(|value| {
            *value += number(amount);
            *value
        })),
        ["remove", k] => optional(map.remove(&key(k))),
        ["remove_entry", k] => optional(map.remove_entry(&key(k)).map(Stored::from)),
        ["index", k] => map[&key(k)].to_string(),
        ["add_disjoint", amount, one, two, three] => {
            let found = map.get_disjoint_mut([&key(one), &key(two), &key(three)]);
            let is_stored = found.each_ref().map(Option::is_some);
            for (times, value) in (1..).zip(found) {
                value.into_iter().for_each(|it| *it += number(amount) * times);
            }
            list(&is_stored)
        }
        ["len"] => map.len().to_string(),
        ["is_empty"] => map.is_empty().to_string(),
        ["iter"] => list(&by_id(map.iter())),
        ["keys"] => list(&by_id(map.keys().copied())),
        ["values"] => {
            let mut values: Vec<&i32> = map.values().collect();
            values.sort_unstable();
            list(&values)
        }
        ["into_iter"] => list(&by_id(map.clone())),
        ["drain"] => list(&by_id(map.drain())),
        ["display"] => map.to_string(),
        _ => return None,
    })
}

/// The calls on a map that return nothing.
fn done<const N: usize>(map: &mut Numbers<N>, words: &[&str]) -> Option<String> {
    match *words {
        ["retain_id", modulus, rest] => map.retain(|key, _| has_rest(key, modulus, rest)),
        ["retain_value", least] => map.retain(|_, value| *value >= number(least)),
        ["double_all"] => map.iter_mut().for_each(|(_, value)| *value *= 2),
        ["clear"] => map.clear(),
        ["clone"] => *map = map.clone(),
        ["from_iter", ref pairs @ ..] => *map = pairs.iter().map(|it| pair(it)).collect(),
        _ => return None,
    }
    Some(DONE.into())
}

/// The calls of an entry. One that is for the other kind of entry tells which it is.
fn by_entry<const N: usize>(map: &mut Numbers<N>, words: &[&str]) -> String {
    let [call, k, numbers @ ..] = words else {
        unknown(words);
    };
    let numbers: Vec<i32> = numbers.iter().map(|it| number(it)).collect();
    match (*call, map.entry(key(k)), numbers.as_slice()) {
        ("or_insert", entry, &[value]) => entry.or_insert(value).to_string(),
        ("and_modify_or_insert", entry, &[amount, value]) => entry
            .and_modify(|stored| *stored += amount)
            .or_insert(value)
            .to_string(),
        ("insert_entry", entry, &[value]) => {
            let entry = entry.insert_entry(value);
            Stored::from((entry.key(), entry.get())).to_string()
        }
        ("occupied_insert", Entry::Occupied(mut entry), &[value]) => entry.insert(value).to_string(),
        ("occupied_remove", Entry::Occupied(entry), []) => entry.remove().to_string(),
        ("occupied_remove_entry", Entry::Occupied(entry), []) => Stored::from(entry.remove_entry()).to_string(),
        ("vacant_insert", Entry::Vacant(entry), &[value]) => entry.insert(value).to_string(),
        ("vacant_into_key", Entry::Vacant(entry), []) => entry.into_key().to_string(),
        (_, Entry::Occupied(_), _) if call.starts_with("vacant_") => "occupied".into(),
        (_, Entry::Vacant(_), _) if call.starts_with("occupied_") => "vacant".into(),
        _ => unknown(words),
    }
}

fn has_rest(key: &Key, modulus: &str, rest: &str) -> bool {
    i32::from(key.id) % number(modulus) == number(rest)
}

fn on_set<const N: usize>(set: &mut Keys<N>, words: &[&str]) -> String {
    match *words {
        ["insert", k] => set.insert(key(k)).to_string(),
        ["checked_insert", k] => optional(set.checked_insert(key(k))),
        ["replace", k] => optional(set.replace(key(k))),
        ["contains", k] => set.contains(&key(k)).to_string(),
        ["get", k] => optional(set.get(&key(k))),
        ["take", k] => optional(set.take(&key(k))),
        ["remove", k] => set.remove(&key(k)).to_string(),
        ["len"] => set.len().to_string(),
        ["retain_id", modulus, rest] => {
            set.retain(|key| has_rest(key, modulus, rest));
            DONE.into()
        }
        ["extend", ref keys @ ..] => {
            set.extend(keys.iter().map(|it| key(it)));
            DONE.into()
        }
        _ => unknown(words),
    }
}
