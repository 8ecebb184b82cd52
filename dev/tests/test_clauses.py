"""Sources without the clauses of their functions."""
from __future__ import annotations

import unittest

from dev.clauses import copy_without_clauses, without_clauses
from given import InFolder, text_of

SOURCE = """//! What a caller ensures { as text }, here.
ghost use Rattle.std.specs.Prelude.{◌≡◌, length};
pub struct Kept {
    pub size: usize,
    ghost fits: { size ≤ 9 } by { IsFitting size },
}
impl Kept {
    // It requires { nothing }.
    pub fn new(size: usize) -> Kept
        requires small { size ≤ 9 }
        ensures { result.size ≡ size }
        ensures* of { (t : ℕ) →
            Of {t} result }
    {
        let text = "ensures { \\" }";
        let quoted = ('"', b'{', r#"requires { " }"#);
        let add = |k: usize| -> usize
            requires { k < 9 }
            ensures { result ≡ k + 1 }
        {
            k + 1
        };
        Kept { size }
    }
    fn at<'a>(&'a self, requires_more: bool) -> &'a usize ensures is { result ≡ '{' } { &self.size }
}
impl Add for Kept {
    ghost can_add = { λ p q. ensures { p } q };
}
trait Freed {
    ghost token: { Self → Ty };
    fn free(&self, at: *mut u8)
        ghost ty: { Ty }
        requires { HasLayout ty at }
        ensures { Freed at };
    fn next(&self) ensures { ⊤ };
}
"""
BARE = """//! What a caller ensures { as text }, here.
ghost use Rattle.std.specs.Prelude.{◌≡◌, length};
pub struct Kept {
    pub size: usize,
    ghost fits: { size ≤ 9 } by { IsFitting size },
}
impl Kept {
    // It requires { nothing }.
    pub fn new(size: usize) -> Kept




    {
        let text = "ensures { \\" }";
        let quoted = ('"', b'{', r#"requires { " }"#);
        let add = |k: usize| -> usize


        {
            k + 1
        };
        Kept { size }
    }
    fn at<'a>(&'a self, requires_more: bool) -> &'a usize  { &self.size }
}
impl Add for Kept {
    ghost can_add = { λ p q. ensures { p } q };
}
trait Freed {
    ghost token: { Self → Ty };
    fn free(&self, at: *mut u8)
        ghost ty: { Ty }
        requires { HasLayout ty at }
        ensures { Freed at };
    fn next(&self) ;
}
"""


class Clauses(InFolder):
    def test_clauses_go_and_all_else_stays_on_its_line(self) -> None:
        bare = without_clauses(SOURCE)
        self.assertEqual([line.rstrip() for line in bare.split("\n")], BARE.split("\n"))
        self.assertEqual(without_clauses(bare), bare)

    def test_a_source_with_comments_that_may_be_nested_stays_as_it_is(self) -> None:
        text = "/* /* */ ensures { a } */\nfn f() ensures { b } {}\n"
        self.assertEqual(without_clauses(text), text)

    def test_braces_that_do_not_end_are_refused(self) -> None:
        for text in ("fn f() ensures { a {}", "struct A { ghost a: { b"):
            with self.assertRaises(ValueError):
                without_clauses(text)

    def test_a_folder_is_copied_with_the_folders_in_it(self) -> None:
        self.write("src/lib.rt", "pub fn f() ensures { a } {}\r\n")
        self.write("src/deep/in.rt", "fn g() {}\n")
        self.write("src/deep/notes.txt", "ensures { a }\n")
        copy_without_clauses(self.path("src"), self.path("copy"))
        found = {name: text_of(self.path("copy", name)) for name in ("lib.rt", "deep/in.rt", "deep/notes.txt")}
        self.assertEqual(found, {
            "lib.rt": "pub fn f()  {}\n", "deep/in.rt": "fn g() {}\n", "deep/notes.txt": "ensures { a }\n"
        })


if __name__ == "__main__":
    unittest.main()
