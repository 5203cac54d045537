"""Tries what reads the text of Rattle."""
import tempfile
import unittest

from pages.sources import around, blocks, bodies, branches, function_in, head_of, imports_in, items_of, needed, whose
from pages.sources import with_module, write

SOURCE = """//! A list.
#![tactic(auto)]

ghost use Rattle.std.specs.Prelude.{◌≡◌, length, Some};
ghost use Rattle.std.specs.Map.{at};

use std::cmp::Ordering;
use std::fmt;

macro_rules! twice {
    ($name:ident) => {
        fn $name() {}
    };
}

twice!(hidden);

/// A list, as `{`.
// Not shown {
#[derive(Clone, Debug)]
pub struct List<T> {
    items: T,
}

pub type Short = List<u8>;

impl<T: Eq + Clone, const N: usize> Model for List<T> {
    ghost logic = { length };
}

impl<T: Eq + Clone, K: Into<Option<T>>, const N: usize> List<T>
where
    T: Drop,
{
    /// Returns an item.
    ///
    /// It is the first.
    pub fn first(
        &self,
        mut least: u8,
    ) -> Option<u8>
        requires { least ≤ 3 }
        // What it is {
        ensures answer { result ≡ Some
            least }
        ensures { length self.now ≡ 1 }
    {
        // }
        let found = least;
        match found {
            0 => None,
            _ => Some(helped(found)),
        }
    }

    fn own(&self) {}
}

fn helped(number: u8) -> u8 { number }
"""


class Reading(unittest.TestCase):
    @classmethod
    def setUpClass(cls):
        with tempfile.NamedTemporaryFile(suffix=".rt") as file:
            write(file.name, SOURCE)
            cls.items = {it.name if it.kind != "impl" else it.trait or "own": it for it in items_of(file.name)}

    def test_items_are_the_public_ones_and_impls(self):
        self.assertEqual([*self.items], ["List", "Short", "Model", "own"])

    def test_a_macro_is_no_function(self):
        self.assertNotIn("$name", "".join(it.code for it in blocks(SOURCE)))

    def test_a_brace_in_a_comment_ends_nothing(self):
        last = [*blocks(SOURCE)][-2]
        self.assertTrue(last.code.endswith("    fn own(&self) {}\n}"))
        self.assertEqual(self.items["List"].doc, "A list, as `{`.")
        self.assertEqual(self.items["List"].derives, ["Clone", "Debug"])

    def test_a_clause_may_have_two_lines(self):
        answer = ("ensures", "answer", "result ≡ Some least")
        wanted = [("requires", "", "least ≤ 3"), answer, ("ensures", "", "length self.now ≡ 1")]
        self.assertEqual(self.items["own"].functions[0].clauses, wanted)

    def test_a_signature_stands_on_one_line(self):
        first = self.items["own"].functions[0]
        self.assertEqual(first.head, "fn first(&self, least: u8) -> Option<u8>")
        self.assertEqual(first.doc, "Returns an item.\n\nIt is the first.")
        self.assertEqual([it.name for it in self.items["own"].functions], ["first"])

    def test_an_impl_has_bounds(self):
        item = self.items["own"]
        self.assertEqual((item.trait, item.name, item.bounds), ("", "List", ["T: Clone", "K: Into<Option<T>>"]))
        self.assertEqual(whose("<'a, K: Eq> Iterator for Iter<'a, K>"), ("Iterator", "Iter<'a, K>", "Iter", []))

    def test_a_ghost_member_is_read(self):
        self.assertEqual(self.items["Model"].ghosts, [("", "logic", " =", "length")])

    def test_the_function_around_a_line_has_no_comments(self):
        found = around(SOURCE, "        let found = least;")
        self.assertEqual(len(found), 1)
        self.assertTrue(found[0].lstrip().startswith("pub fn first("))
        self.assertNotIn("//", found[0])
        self.assertEqual(around("no code", "code"), ["no code"])

    def test_branches_are_those_of_the_code(self):
        self.assertEqual(branches(["if a && b {", "    0 => iffy?,"]), ["&&", "=>", "?", "if"])

    def test_bodies_have_neither_contracts_nor_comments(self):
        one = SOURCE.replace("// What it is {", "// Else").replace("least ≤ 3", "least ≤ 4")
        self.assertEqual(bodies(one), bodies(SOURCE))
        self.assertNotEqual(bodies(SOURCE.replace("let found = least", "let found = 0")), bodies(SOURCE))

    def test_a_function_needs_those_that_it_calls(self):
        items = [*blocks(f"{SOURCE}\npub fn all() -> u8 {{ helped(1) }}\n\nfn another() {{}}\n")]
        self.assertEqual([function_in(it).name for it in needed("all", items)], ["helped", "all"])

    def test_a_head_has_the_imports_that_are_named(self):
        head = "#![tactic(auto)]\n\nghost use Rattle.std.specs.Prelude.{◌≡◌, length, Some};"
        self.assertEqual(head_of(SOURCE, [*blocks(SOURCE)]), head)
        of_fmt = [*blocks("fn show() { fmt::show() }\n")]
        self.assertEqual(head_of(SOURCE, of_fmt), "#![tactic(auto)]\n\nuse std::fmt;")

    def test_imports_are_apart_from_code(self):
        names, rest = imports_in("ghost use Rattle.std.Map.{at, put as set};\nuse crate::map::Map;\n    let a = 1;\n")
        self.assertEqual(names, {("Rattle.std.Map", "at"), ("Rattle.std.Map", "put"), ("crate::map", "Map")})
        self.assertEqual(rest, "let a = 1;\n")

    def test_a_module_stands_in_order(self):
        self.assertEqual(with_module("//! A\nmod a;\npub mod c;\n", "mod b;"), "//! A\nmod a;\nmod b;\npub mod c;\n")
        self.assertEqual(with_module("//! A\n\nfn f() {}\n", "mod b;"), "//! A\n\nmod b;\n\nfn f() {}\n")
        self.assertEqual(with_module("pub mod b;\n", "mod b;"), "pub mod b;\n")
