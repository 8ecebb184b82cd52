"""The module of `rt try` without its checks. The lines are as the kit and its compiler write them."""
from __future__ import annotations

import unittest

from dev.module_parts import Module
from dev.module_text import Inlining, attributes_in, without_checks
from given import InFolder

SOURCE = """//! A crate.
#[inline(always)]
#[tactic(auto)]
pub fn small(a: u64) -> u64 {
    a
}

#[inline(never)]
// why
#[cold]
fn far() {}

#[inline]
struct NoFunction;
pub(crate) const fn plain() {}
"""
MODULE = """target triple = "x86_64-unknown-linux-gnu"
@static.0 = private unnamed_addr constant [1 x i8] c"a", align 1
define i32 @main() #0 {
  ret i32 0
}
define internal void @"rattle-llvm-checks::overflow"(i1 noundef %a0) #1 {
  br i1 %a0, label %bad, label %good
bad:
  call void @llvm.trap()
}
define internal void @"low::deep::small"(ptr noundef %a0) #0 {
  %r1 = alloca [8 x i8], align 8
  call void @llvm.memset.p0.i64(ptr %r1, i8 -86, i64 8, i1 false)
  call void @llvm.memset.p0.i64(ptr %r1, i8 0, i64 8, i1 false)
  call void @"rattle-llvm-checks::overflow"(i1 true)
  call void @llvm.trap()
  unreachable
}
define internal void @"low::Thing::far::<#d858>"(ptr noundef %a0) #0 {
  ret void
}
attributes #0 = { sanitize_address "frame-pointer"="all" "target-cpu"="x86-64" }
attributes #1 = { }
"""


class Attributes(unittest.TestCase):
    def test_each_function_has_the_words_right_above_it(self) -> None:
        self.assertEqual(
            list(attributes_in(SOURCE.splitlines())),
            [("small", {"alwaysinline"}), ("far", {"noinline", "cold"}), ("plain", set())],
        )


class Text(InFolder):
    def setUp(self) -> None:
        super().setUp()
        self.write("src/lib.rt", "mod deep;\nfn small() {}\n#[cold]\nfn far() {}\n")
        self.write("src/deep.rt", SOURCE)
        self.inlining = Inlining()
        self.inlining.read("low", self.path("src"))

    def test_a_function_name_shared_by_several_is_resolved_by_its_module(self) -> None:
        self.assertEqual(self.inlining.of("low::deep::small"), {"alwaysinline"})
        self.assertEqual(self.inlining.of("low::small"), set())
        self.assertEqual(self.inlining.of("low::Thing::far::<#d858>"), {"cold"})
        self.assertEqual(self.inlining.of("other::small"), set())

    def test_checks_fills_and_marks_are_removed_and_everything_else_stays(self) -> None:
        lines = list(without_checks(MODULE.splitlines(True), self.inlining))
        self.assertEqual([line.count("\n") for line in lines], [1] * len(lines))
        text = "".join(lines)
        self.assertNotRegex(text, r"llvm\.trap|i8 -86|sanitize_address|frame-pointer")
        self.assertIn(
            'define internal void @"rattle-llvm-checks::overflow"(i1 noundef %a0) alwaysinline {\n  ret void\n}\n',
            text)
        self.assertIn("call void @llvm.memset.p0.i64(ptr %r1, i8 0, i64 8, i1 false)\n", text)
        self.assertIn('define internal void @"low::deep::small"(ptr noundef %a0) #900 {\n', text)
        self.assertIn('define internal void @"low::Thing::far::<#d858>"(ptr noundef %a0) #901 {\n', text)
        self.assertIn("define i32 @main() #0 {\n  ret i32 0\n}\n", text)
        self.assertIn('attributes #0 = { "target-cpu"="x86-64-v2" }\n', text)
        self.assertIn("attributes #1 = { nounwind }\n", text)
        self.assertRegex(
            text, r"attributes #900 = \{ alwaysinline nounwind .*\}\nattributes #901 = \{ cold nounwind .*\}\n$")

    def test_the_rest_splits_into_its_functions(self) -> None:
        module = Module(without_checks(MODULE.splitlines(True), self.inlining))
        self.assertEqual(list(module.functions),
                         ["main", '"rattle-llvm-checks::overflow"', '"low::deep::small"', '"low::Thing::far::<#d858>"'])
        self.assertEqual(module.attributes('"low::deep::small"').split()[0], "alwaysinline")


if __name__ == "__main__":
    unittest.main()
