//! Chooses calls, at random but always the same, so that maps and sets are neither empty nor full for long. So each kind of
//! call meets empty, full and partly filled ones, and equal keys with different marks.

use crate::perform::{Case, Keys, Numbers};
use crate::words::{Key, Stored};
use std::collections::HashMap;
use std::ops::Range;

/// The headers of the cases, each with the number of its calls and what it creates. After the last the first comes again.
pub const CASES: &[(&str, usize, fn() -> Box<dyn Case>)] = &[
    ("map 3", 30, new::<Numbers<3>>),
    ("map 0", 6, new::<Numbers<0>>),
    ("map 1", 14, new::<Numbers<1>>),
    ("map 2", 20, new::<Numbers<2>>),
    ("map 5", 34, new::<Numbers<5>>),
    ("map 8", 36, new::<Numbers<8>>),
    ("maps 3 5", 16, new::<(Numbers<3>, Numbers<5>)>),
    ("maps 0 3", 4, new::<(Numbers<0>, Numbers<3>)>),
    ("maps 5 3", 16, new::<(Numbers<5>, Numbers<3>)>),
    ("maps 5 5", 16, new::<(Numbers<5>, Numbers<5>)>),
    ("sets 3 5", 34, new::<(Keys<3>, Keys<5>)>),
    ("sets 0 3", 10, new::<(Keys<0>, Keys<3>)>),
    ("sets 5 3", 34, new::<(Keys<5>, Keys<3>)>),
    ("sets 5 5", 34, new::<(Keys<5>, Keys<5>)>),
];

fn new<T: Case + Default + 'static>() -> Box<dyn Case> {
    Box::<T>::default()
}

// Calls with the number of times that each comes before all come again. A word in capitals is chosen as
// `Chooser::word` says, and `ALIKE` is a call that makes two maps or sets more alike.
type Calls = &'static [(usize, &'static str)];

const ON_MAP: Calls = &[
    (5, "insert KEY VALUE"),
    (4, "insert_key_value KEY VALUE"),
    (5, "checked_insert KEY VALUE"),
    (2, "get KEY"),
    (2, "get_key_value KEY"),
    (2, "contains_key KEY"),
    (2, "get_mut KEY AMOUNT"),
    (3, "remove KEY"),
    (3, "remove_entry KEY"),
    (1, "len"),
    (1, "is_empty"),
    (1, "clear"),
    (2, "index KEY"),
    (3, "or_insert KEY VALUE"),
    (3, "and_modify_or_insert KEY AMOUNT VALUE"),
    (3, "insert_entry KEY VALUE"),
    (2, "occupied_insert KEY VALUE"),
    (2, "occupied_remove KEY"),
    (2, "occupied_remove_entry KEY"),
    (3, "vacant_insert KEY VALUE"),
    (2, "vacant_into_key KEY"),
    (2, "retain_id MODULUS REST"),
    (2, "retain_value VALUE"),
    (2, "double_all"),
    (4, "add_disjoint AMOUNT KEY KEY KEY"),
    (2, "iter"),
    (1, "keys"),
    (1, "values"),
    (2, "into_iter"),
    (1, "drain"),
    (1, "clone"),
    (2, "display"),
    (3, "from_iter PAIRS"),
];
const ON_MAPS: Calls = &[
    (8, "ALIKE"),
    (3, "EITHER insert KEY VALUE"),
    (1, "EITHER remove KEY"),
    (6, "eq"),
];
const ON_SETS: Calls = &[
    (10, "ALIKE"),
    (5, "EITHER insert KEY"),
    (4, "EITHER checked_insert KEY"),
    (5, "EITHER replace KEY"),
    (2, "EITHER contains KEY"),
    (2, "EITHER get KEY"),
    (4, "EITHER take KEY"),
    (4, "EITHER remove KEY"),
    (3, "EITHER retain_id MODULUS REST"),
    (1, "EITHER len"),
    (5, "EITHER extend KEYS"),
    (4, "eq"),
    (4, "is_subset"),
    (4, "is_superset"),
    (4, "is_disjoint"),
    (3, "difference"),
    (3, "intersection"),
    (4, "union"),
    (3, "symmetric_difference"),
    (2, "bitand"),
    (2, "sub"),
];
const NAMES: [&str; 2] = ["a", "b"];

fn calls_of(kind: &str) -> Calls {
    match kind {
        "map" => ON_MAP,
        "maps" => ON_MAPS,
        _ => ON_SETS,
    }
}

/// A sequence of numbers that look random, by the generator SplitMix64.
#[derive(Default)]
struct Random(u64);

impl Random {
    fn below(&mut self, bound: usize) -> usize {
        self.0 = self.0.wrapping_add(0x9E37_79B9_7F4A_7C15);
        let mut mixed = self.0;
        mixed = (mixed ^ (mixed >> 30)).wrapping_mul(0xBF58_476D_1CE4_E5B9);
        mixed = (mixed ^ (mixed >> 27)).wrapping_mul(0x94D0_49BB_1331_11EB);
        ((mixed ^ (mixed >> 31)) % bound as u64) as usize
    }

    fn within(&mut self, range: Range<i32>) -> i32 {
        range.start + self.below(range.len()) as i32
    }

    fn one_of<T: Copy>(&mut self, all: &[T]) -> T {
        all[self.below(all.len())]
    }

    fn mark(&mut self) -> char {
        (b'a' + self.below(26) as u8) as char
    }
}

fn has(content: &[Stored], key: Key) -> bool {
    content.iter().any(|it| it.key == key)
}

/// Chooses the calls of one case after the other.
#[derive(Default)]
pub struct Chooser {
    random: Random,
    kind: &'static str,
    room: Vec<usize>,
    ids: Range<usize>,
    values: Range<i32>,
    /// The calls of each kind that come before all of them come again.
    left: HashMap<&'static str, Vec<&'static str>>,
}

impl Chooser {
    pub fn new(seed: u64) -> Self {
        Chooser { random: Random(seed), ..Default::default() }
    }

    /// Begins the case of a header. Its ids are few, so that keys come again, and at times end at the greatest.
    pub fn begin(&mut self, header: &'static str) {
        let (kind, room) = header.split_once(' ').expect("a kind and capacities");
        self.kind = kind;
        self.room = room.split(' ').map(|it| it.parse().expect("a capacity")).collect();
        let most = *self.room.iter().max().expect("a capacity");
        let width = if kind == "map" { (most + 2).max(3) } else { most + 1 };
        let start = self.random.one_of(&[0, 0, 0, 95, 246]);
        self.ids = start..start + width;
        self.values = if kind == "maps" { 0..2 } else { -9..41 };
    }

    /// Returns the next call on maps or sets that hold this.
    pub fn call(&mut self, contents: &[Vec<Stored>]) -> String {
        let one = self.random.below(self.room.len());
        let turns = if self.room.len() == 1 { 3 } else { 5 };
        if contents[one].len() < self.room[one] && self.random.below(turns) == 0 {
            return self.filling(one, &contents[one]);
        }
        // A longer map is printed in an order of its own, and doubling is kept within three digits.
        let first = &contents[0];
        let is_short = first.len() == 1 || first.is_empty() && self.random.below(4) == 0;
        let is_small = first.iter().all(|it| it.value.unwrap_or(0).abs() <= 99);
        match self.draw(|call| (is_short || call != "display") && (is_small || call != "double_all")) {
            "ALIKE" => self.alike(contents),
            call => self.words(call),
        }
    }

    /// Takes the first call that is allowed. When none is left, all are laid below the rest in a random order.
    fn draw(&mut self, is_allowed: impl Fn(&str) -> bool) -> &'static str {
        let left = self.left.entry(self.kind).or_default();
        loop {
            if let Some(place) = left.iter().position(|call| is_allowed(call)) {
                return left.remove(place);
            }
            let mut more: Vec<_> = calls_of(self.kind).iter().flat_map(|&(times, call)| vec![call; times]).collect();
            while !more.is_empty() {
                left.push(more.swap_remove(self.random.below(more.len())));
            }
        }
    }

    fn key(&mut self) -> Key {
        let id = self.ids.start + self.random.below(self.ids.len());
        Key { id: id as u8, mark: self.random.mark() }
    }

    fn value(&mut self) -> i32 {
        self.random.within(self.values.clone())
    }

    fn words(&mut self, call: &str) -> String {
        let words: Vec<String> = call.split(' ').map(|it| self.word(it)).collect();
        words.join(" ").trim_end().into()
    }

    fn word(&mut self, word: &str) -> String {
        match word {
            "KEY" => self.key().to_string(),
            "VALUE" => self.value().to_string(),
            "AMOUNT" => self.random.within(-9..10).to_string(),
            "MODULUS" => self.random.within(2..4).to_string(),
            "REST" => self.random.within(0..2).to_string(),
            "EITHER" => self.random.one_of(&NAMES).into(),
            "PAIR" => Stored::from((self.key(), self.value())).to_string(),
            "KEYS" => {
                let count = self.random.below(4);
                self.words(&vec!["KEY"; count].join(" "))
            }
            "PAIRS" => {
                let count = self.random.below(self.room[0] + 3);
                self.words(&vec!["PAIR"; count].join(" "))
            }
            _ => word.into(),
        }
    }

    /// Inserts a new key, since most other calls leave room.
    fn filling(&mut self, one: usize, content: &[Stored]) -> String {
        let mut key = self.key();
        while has(content, key) {
            key = self.key();
        }
        let name = NAMES[one];
        match self.kind {
            "map" => {
                let call = self.random.one_of(&["insert", "checked_insert", "or_insert", "vacant_insert"]);
                format!("{call} {key} {}", self.value())
            }
            "maps" => format!("{name} insert {key} {}", self.value()),
            _ => format!("{name} {} {key}", self.random.one_of(&["insert", "checked_insert", "replace"])),
        }
    }

    /// Inserts into one of two what only the other has, or removes what only it has. If they are alike, compares them
    /// or ends that.
    fn alike(&mut self, contents: &[Vec<Stored>]) -> String {
        let one = self.random.below(2);
        let (name, ours, theirs) = (NAMES[one], &contents[one], &contents[1 - one]);
        let lacking = theirs.iter().find(|it| !ours.contains(it));
        let extra = ours.iter().find(|it| !has(theirs, it.key));
        let mark = self.random.mark();
        match (lacking, extra) {
            (Some(&Stored { key, value }), _) if ours.len() < self.room[one] || has(ours, key) => {
                let value = value.map_or(String::new(), |it| format!(" {it}"));
                format!("{name} insert {}{mark}{value}", key.id)
            }
            (_, Some(Stored { key, .. })) => format!("{name} remove {}{mark}", key.id),
            _ if !ours.is_empty() && self.random.below(2) == 0 => "eq".into(),
            _ if self.kind == "maps" => self.words("EITHER insert KEY VALUE"),
            _ => self.words("EITHER replace KEY"),
        }
    }
}
