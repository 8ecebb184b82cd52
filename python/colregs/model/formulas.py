"""What a formula of a scenario's own can see of a trace (docs/FORMULAS.md): how far it looks, and whether it speaks of
meetings alone.

A join of windows needs that. A window may begin a pair's trace later than the whole audit does, with positions missing
at which the two are not engaged.
"""
import re
from collections.abc import Callable
from dataclasses import dataclass

from colregs.errors import Fault

TOKEN = re.compile(r" *([a-z][a-z0-9_]*|[A-Z]|[0-9]+|->|[!&|()\[\],]|$)")
NO, OPEN, YES = 0, 1, 2
ANY = frozenset((NO, OPEN, YES))
OF_MEETINGS = frozenset((  # these atoms are No wherever the two are not engaged (docs/AUDIT.md)
    "risk", "engaged", "begin", "overtaking", "overtaken", "head_on", "crossing_gives", "crossing_stands", "passing",
    "unclassified", "age", "alters", "apparent", "to_starboard", "to_port", "other_apparent", "rank_gives",
    "rank_stands", "both_power"))
ONE_NUMBER = ("clear", "close", "age")
DEEPEST = 200                    # parentheses and operators within one another; the program takes 64


@dataclass(frozen=True)
class Sight:
    """What is known of a formula: seconds that it looks back and ahead, its values where the two are not engaged, and
    whether a missing position before the trace is to it as one at which they are not engaged."""

    back: int
    ahead: int
    values: frozenset[int]
    no_edge: bool


def sight_of(text: str) -> Sight:
    """Returns what a formula sees; a Fault if it is no formula."""
    reader = Reader(text)
    found = reader.formula()
    reader.expect("")
    return found


class Reader:
    """Reads a formula's text from the left."""

    def __init__(self, text: str) -> None:
        self.text, self.place, self.depth = text, 0, 0

    def peek(self) -> str:
        found = TOKEN.match(self.text, self.place)
        if not found:
            raise self.fault()
        return found[1]

    def take(self) -> str:
        found = TOKEN.match(self.text, self.place)
        if not found:
            raise self.fault()
        self.place = found.end()
        return found[1]

    def fault(self) -> Fault:
        return Fault(f"`{self.text}` is no formula, at its byte {self.place}")

    def expect(self, token: str) -> None:
        if self.take() != token:
            raise self.fault()

    def number(self) -> int:
        token = self.take()
        if not token.isdecimal():
            raise self.fault()
        return int(token)

    def formula(self) -> Sight:
        self.depth += 1
        if self.depth > DEEPEST:
            raise self.fault()
        found = self.chain("|")
        if self.peek() == "->":
            self.take()
            found = both(negated(found), self.formula(), max)
        self.depth -= 1
        return found

    def chain(self, sign: str) -> Sight:
        """Reads operands with this sign between them: those of `|` are chains of `&`."""
        part = self.chain_of_and if sign == "|" else self.linked
        found = part()
        while self.peek() == sign:
            self.take()
            found = both(found, part(), max if sign == "|" else min)
        return found

    def chain_of_and(self) -> Sight:
        return self.chain("&")

    def linked(self) -> Sight:
        found = self.unary()
        if self.peek() in ("U", "S"):
            kind, (lower, upper) = self.take(), self.bounds()
            found = linked(kind, lower, upper, found, self.unary())
        return found

    def bounds(self) -> tuple[int, int]:
        self.expect("[")
        lower = self.number()
        self.expect(",")
        upper = self.number()
        self.expect("]")
        return lower, upper

    def unary(self) -> Sight:
        self.depth += 1
        if self.depth > DEEPEST:
            raise self.fault()
        found = self.operand(self.take())
        self.depth -= 1
        return found

    def operand(self, token: str) -> Sight:
        if token == "!":
            return negated(self.unary())
        if token in ("F", "G", "O", "H"):
            lower, upper = self.bounds()
            return spanned(token, lower, upper, self.unary())
        if token == "(":
            found = self.formula()
            self.expect(")")
            return found
        if not token[:1].islower():
            raise self.fault()
        if token in ONE_NUMBER:
            self.expect("(")
            self.number()
            self.expect(")")
        constants = {"true": frozenset((YES,)), "false": frozenset((NO,))}
        return Sight(0, 0, constants.get(token, frozenset((NO,)) if token in OF_MEETINGS else ANY), True)


def negated(one: Sight) -> Sight:
    return Sight(one.back, one.ahead, frozenset(YES - value for value in one.values), one.no_edge)


def both(one: Sight, two: Sight, pick: Callable[[int, int], int]) -> Sight:
    values = frozenset(pick(a, b) for a in one.values for b in two.values)
    return Sight(max(one.back, two.back), max(one.ahead, two.ahead), values, one.no_edge and two.no_edge)


def spanned(kind: str, lower: int, upper: int, one: Sight) -> Sight:
    if kind in ("F", "G"):
        return Sight(one.back, one.ahead + upper, one.values, one.no_edge)
    missing = NO if kind == "O" else YES                # the value where no position is there
    values = one.values | {missing} if lower else one.values
    return Sight(one.back + upper, one.ahead, values, one.no_edge and one.values == {missing})


def linked(kind: str, lower: int, upper: int, one: Sight, two: Sight) -> Sight:
    values = frozenset(min(a, b) for a in one.values for b in two.values) | (two.values if lower == 0 else frozenset())
    back, ahead = max(one.back, two.back), max(one.ahead, two.ahead)
    if kind == "U":
        return Sight(back, ahead + upper, values, one.no_edge and two.no_edge)
    values = values | {NO} if lower else values
    return Sight(back + upper, ahead, values, one.no_edge and two.no_edge and two.values == {NO})
