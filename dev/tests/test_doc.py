"""`dev/doc`: the page of the crates has each crate, and each public item with its whole contract."""
from __future__ import annotations

import unittest

from dev import crate_page
from dev.repository import listed_crates


class Doc(unittest.TestCase):
    TEXT = """/// A place.
#[derive(Drop)]
pub struct Place {
    /// East of the reference.
    pub x: u64,
    hidden: u64,
}

impl Place {
    /// Moves it.
    pub fn moved(self, by: u64) -> Place
        requires { by ≤ 9 }
        ensures moved { IsMoved (record {
          place = self;
          by = by;
        }) result }
    {
        private(self, by)
    }

    fn hidden_too(&self) -> u64 {
        self.hidden
    }
}

fn private() {}
"""

    def test_an_item_has_its_public_fields_and_calls_and_no_bodies(self) -> None:
        place, = crate_page.items(self.TEXT)
        self.assertEqual((place.name, place.doc), ("Place", ["A place."]))
        self.assertEqual(place.text, ["pub struct Place {", "    /// East of the reference.", "    pub x: u64,", "}"])
        moved, = place.inner
        self.assertEqual((moved.name, moved.doc), ("moved", ["Moves it."]))
        self.assertEqual(moved.text, self.TEXT.splitlines()[10:16])

    def test_the_page_has_each_crate_and_the_headline(self) -> None:
        page = "".join(crate_page.page(list(listed_crates())))
        for name in listed_crates():
            self.assertIn(f'<h2 id="{name}">', page)
        self.assertIn('<h3 id="colregs_program.run">', page)
        self.assertIn("    ensures headline {", page)
