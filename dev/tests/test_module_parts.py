"""A module in parts: each large function in one of them, with what it needs, and nothing twice under one name for
all."""
from __future__ import annotations

import re
import unittest
from collections import Counter
from unittest import mock

from dev import module_parts
from dev.module_parts import Module, parts, shares


def function(name: str, calls: str = "", lines: int = 1, group: int = 0) -> str:
    """Returns a function with so many lines, which calls others."""
    body = "".join(f'  call void @"{it}"()\n' for it in calls.split()) + "  nop\n" * lines
    return f'define internal void @"{name}"(ptr noundef %a0) #{group} {{\n{body}}}\n'


MAIN = '''define i32 @main() #0 {
  call void @"big one"()
  call void @"big two"()
  call void @"little"()
  ret i32 0
}
'''
MODULE = "".join((
    'target triple = "x86_64-unknown-linux-gnu"\n',
    '@table = private constant [1 x ptr] [ptr @"by table"]\n',
    '@text = private constant [1 x i8] c"a"\n',
    '@idle = private constant [1 x i8] c"b"\n',
    MAIN,
    function("big one", "little big_two never", 9),
    function("big two", "little big_one", 9).replace("nop", "use ptr @table", 1),
    function("little", "copied", 1).replace("nop", "use ptr @text"),
    function("copied"),
    function("always", "", 9, 1),
    function("never", "always", 1, 2),
    function("big_one", "always", 9),
    function("big_two", "always big_one", 9),
    function("by table", "little"),
    function("idle", "little", 9),
    "declare void @llvm.assume(i1)\n",
    "attributes #0 = { nounwind }\n",
    "attributes #1 = { alwaysinline }\n",
    "attributes #2 = { noinline }\n",
))


class Parts(unittest.TestCase):
    def setUp(self) -> None:
        patch = mock.patch.object(module_parts, "LARGE", 8)
        patch.start()
        self.addCleanup(patch.stop)
        self.parts = ["".join(lines) for lines in parts(MODULE.splitlines(True), 3)]

    def defined(self, kind: str) -> Counter[str]:
        """Returns how many parts define each function, as one for all parts or as a copy."""
        pattern = rf'^define {kind}\S* @"?([^"(]+)"?\('
        return Counter(name for text in self.parts for name in re.findall(pattern, text, re.M))

    def test_each_large_function_is_for_all_in_one_part_and_is_main(self) -> None:
        self.assertEqual(set(self.defined("hidden ").values()), {1})
        # several call big_one, and never must not be inlined
        self.assertEqual(sorted(self.defined("hidden ")), ["big_one", "never"])
        self.assertEqual(sum("define i32 @main()" in text for text in self.parts), 1)

    def test_each_part_has_the_functions_that_it_calls(self) -> None:
        for text in self.parts:
            for name in set(re.findall(r'@"([^"]+)"', text)):
                self.assertRegex(text, rf'(?m)^(define|declare) .*@"{name}"\(ptr noundef %a0\)', name)

    def test_functions_that_main_does_not_need_are_left_out(self) -> None:
        self.assertNotIn("idle", "".join(self.parts))
        self.assertIn('"by table"', "".join(self.parts))

    def test_a_single_part_is_the_module(self) -> None:
        (one,) = ("".join(lines) for lines in parts(MODULE.splitlines(True), 1))
        self.assertNotIn("declare hidden", one)
        self.assertEqual(one.count("define "), MODULE.count("define ") - 1)

    def test_data_that_changes_and_a_module_without_a_program_are_refused(self) -> None:
        for text in (MODULE + "@state = private global i64 0\n", MODULE.replace("@main", "@other")):
            with self.assertRaises(ValueError):
                parts(text.splitlines(True), 2)

    def test_shares_need_about_the_same_lines(self) -> None:
        text = "".join(function(f"f{k}", " ".join(f"f{it}" for it in range(k)), 20, 2) for k in range(12))
        module = Module(("define i32 @main() #0 {\n" + "".join(f'  call void @"f{k}"()\n' for k in range(12)) + "}\n"
                         + text + "attributes #2 = { noinline }\n").splitlines(True))
        sizes = [sum(len(module.functions[name]) for name in share) for share in shares(module, 4)]
        self.assertLess(max(sizes), 1.3 * min(sizes))


if __name__ == "__main__":
    unittest.main()
