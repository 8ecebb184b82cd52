"""Formulas as trees: parsed from text, and computed from the definitions that the proofs use.

A tree is a tuple: ("word",), ("word", number), ("!", a), ("&", a, b), ("F", low, high, a) or ("S", low, high, a, b),
with bounds in positions.
"""
from __future__ import annotations

import re
from collections.abc import Callable
from typing import Any

Tree = tuple[Any, ...]
Value = Any      # of a definition: a number, a tree, or the fields of a record by their names


class Text:
    """A formula in the grammar of docs/FORMULAS.md. Parsing raises ValueError or IndexError if the text is not one."""

    def __init__(self, text: str, tick: int):
        self._tokens, self._tick = re.findall(r"[a-z][a-z0-9_]*|[A-Z]|\d+|->|[!&|()\[\],]|\S", text) + [""], tick

    def _take(self, *wanted: str) -> str | None:
        return self._tokens.pop(0) if self._tokens[0] in wanted else None

    def _need(self, token: str) -> None:
        if self._take(token) is None:
            raise ValueError(f"'{self._tokens[0]}' instead of '{token}'")

    def _number(self) -> int:
        return int(self._tokens.pop(0))

    def tree(self) -> Tree:
        """Returns the tree of the whole text."""
        tree = self._formula()
        self._need("")
        return tree

    def _formula(self) -> Tree:
        tree = self._joined("|", lambda: self._joined("&", self._linked))
        return ("->", tree, self._formula()) if self._take("->") else tree

    def _joined(self, sign: str, operand: Callable[[], Tree]) -> Tree:
        tree = operand()
        while self._take(sign):
            tree = (sign, tree, operand())
        return tree

    def _linked(self) -> Tree:
        tree = self._unary()
        sign = self._take("U", "S")
        return (sign, *self._bounds(), tree, self._unary()) if sign else tree

    def _bounds(self) -> tuple[int, int]:
        self._need("[")
        low = self._number()
        self._need(",")
        high = self._number()
        self._need("]")
        if low % self._tick or high % self._tick:
            raise ValueError("a bound is not a multiple of the tick")
        return low // self._tick, high // self._tick

    def _unary(self) -> Tree:
        sign = self._take("!", "F", "G", "O", "H", "(")
        if sign == "!":
            return "!", self._unary()
        if sign == "(":
            tree = self._formula()
            self._need(")")
            return tree
        return (sign, *self._bounds(), self._unary()) if sign else self._atom()

    def _atom(self) -> Tree:
        word = self._tokens.pop(0)
        if not re.fullmatch(r"[a-z][a-z0-9_]*", word):
            raise ValueError(f"'{word}' instead of an atom")
        if not self._take("("):
            return (word,)
        value = self._number()
        self._need(")")
        return word, value


def word_of(name: str) -> str:
    """Returns the word of an atom in a formula, head_on for HeadOn; the names of operators and of cases stay."""
    if name in ("F", "G", "H", "O", "U", "S", "And", "Or", "Implies", "Ignored", "Counted", "One", "PerKind"):
        return name
    return re.sub(r"(?<=[a-z])(?=[A-Z])", "_", name).lower()


class Definitions:
    """Evaluates the clauses of a module of definitions that consist of names, numbers and applications.

    Evaluation raises ValueError if a clause has another form, or if none fits.
    """

    INFIX = {"implies": 20, "or": 25, "and": 30}      # how tightly each binds
    SIGNS = {"And": "&", "Or": "|", "Implies": "->"}

    def __init__(self, text: str):
        self._clauses: dict[str, list[tuple[list[str], list[str]]]] = {}
        body: list[str] | None = None
        for line in text.splitlines():
            line = line.split("--")[0].rstrip()
            clause = re.match(r"(?!abbrev|unfoldable|pub|use|infix)([^ =:][^=:]*) =( .*|)$", line)
            if clause:
                head = clause[1].split()
                infix = len(head) == 3 and head[1] in self.INFIX
                head = [head[1], head[0], *head[2:]] if infix else self._words(clause[1])
                body = self._words(clause[2])
                self._clauses.setdefault(head[0], []).append((head[1:], body))
            elif body is not None and line.startswith(" "):
                body += self._words(line)
            elif line:
                body = None

    @staticmethod
    def _words(text: str) -> list[str]:
        return re.findall(r"[\w.]+|[()/]|\S", text)

    def call(self, name: str, values: list[Value]) -> Value:
        """Returns the value of a definition for these arguments, by the first of its clauses that fits."""
        for heads, body in self._clauses.get(name, []):
            known = self._fit(list(heads), values)
            if known is not None:
                words = list(body)
                value = self._infix(words, known, 0)
                if words:
                    raise ValueError(f"{name}: 'cannot evaluate '{' '.join(words)}'")
                return value
        raise ValueError(f"no clause of {name} fits")

    @staticmethod
    def _fit(heads: list[str], values: list[Value]) -> dict[str, Value] | None:
        """Returns the values of the names in a clause's head, or None if the arguments do not fit."""
        known: dict[str, Value] = {}
        for value in values:
            if not heads:
                return None
            head, parts = heads.pop(0), []
            if head == "(":
                head = heads.pop(0)
                while heads[0] != ")":
                    parts.append(heads.pop(0))
                heads.pop(0)
            if head[0].islower() or head == "_":
                known[head] = value
            elif value[0] != head or len(value) != len(parts) + 1:
                return None
            else:
                known.update(zip(parts, value[1:]))
        return None if heads else known

    def _infix(self, words: list[str], known: dict[str, Value], least: int) -> Value:
        value = self._applied(words, known)
        while words and (words[0] == "/" or self.INFIX.get(words[0], -1) >= least):
            sign = words.pop(0)
            if sign == "/":
                value //= self._one(words, known)
            else:
                right = self._infix(words, known, self.INFIX[sign] + (sign != "implies"))
                value = self.call(sign, [value, right])
        return value

    def _applied(self, words: list[str], known: dict[str, Value]) -> Value:
        name = words[0]
        if name == "(" or name.split(".")[0] in known or name.isdigit():
            return self._one(words, known)
        words.pop(0)
        values: list[Value] = []
        while words and words[0] not in (")", "/", *self.INFIX):
            values.append(self._one(words, known))
        if name == "leaf":
            return values[0]
        if name == "negation":
            return ("!", *values)
        if name == "pair":
            return (self.SIGNS[values[0][0]], *values[1:])
        if name in ("span", "link"):
            return (values[0][0], *values[1:])
        return (word_of(name), *values) if name[0].isupper() else self.call(name, values)

    def _one(self, words: list[str], known: dict[str, Value]) -> Value:
        word = words.pop(0)
        if word == "(":
            value = self._infix(words, known, 0)
            if words.pop(0) != ")":
                raise ValueError("a parenthesis is not closed")
            return value
        name, _, field = word.partition(".")
        if name in known:
            return known[name][field] if field else known[name]
        if word.isdigit():
            return int(word)
        return (word_of(word),) if word[0].isupper() else self.call(word, [])
