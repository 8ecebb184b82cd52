"""docs/RULES.md: each formula is that of the definitions and behaves as its rule, and the numbers and drawings are
right.

- Each formula of the page is the tree of the definitions (`rule_set/specs/RuleTrees`), read with the numbers of the
  scenario that the page names for it. Each rule has its formula on the page; those with ranks follow by its table.
- The program audits each formula beside its rule, as a formula of the scenario, with the same rows and total: over all
  shipped examples with their own numbers of detection and action, and with some of these altered; if ranks count, also
  with vessels that fish. Each has some row that is broken or open there.
- The table of numbers has each number of `detect`, `act` and `rules` once, with the values of the shipped scenarios.
- The drawings are what dev/draw_rules.py makes.
"""
from __future__ import annotations

import itertools
import os
import re
import subprocess
import tempfile
import tomllib
from collections.abc import Iterator
from typing import Any

from colregs.io.sentences import total
from dev import draw_rules
from dev.checking import Findings
from dev.formulas import Definitions, Text, Tree
from dev.repository import path_of, read

NEEDS_PROGRAM = True
# For each sort of formula the scenario that has its numbers, and what the scenario says of ranks.
SORTS = {"": ("crossing", 0), "ranks": ("crossing", 1), "version 2": ("harbour_of_twenty", 0)}
# Numbers of detection and action with which more rules are broken than with those of the examples.
ALTERED: list[dict[str, int]] = [{}, {"clear": 4000}, {"apparent_turn": 450},
                                 {"apparent_turn": 450, "risk": 2000,
                                  "clear": 4000}, {"steady_turn": 0, "horizon": 1200}]
FORMULAS = 5      # the most formulas of a scenario
SIX_BIT = "0123456789:;<=>?@ABCDEFGHIJKLMNOPQRSTUVW`abcdefghijklmnopqrstuvw"

Formulas = dict[str, dict[str, str]]      # the text of each formula, by sort and rule


def scenario(name: str) -> dict[str, Any]:
    """Returns the values of a shipped scenario, by table and key."""
    return tomllib.loads(read("examples", name + ".toml"))


def scenarios() -> list[str]:
    """Returns the names of the shipped scenarios."""
    return sorted(name[:-5] for name in os.listdir(path_of("examples")) if name.endswith(".toml"))


# ---- trees

def trees(sort: str) -> tuple[int, dict[str, Tree]]:
    """Returns the tick of a sort's scenario, and the tree of each rule by its name, from the definitions and the
    numbers of that scenario."""
    name, ranks = SORTS[sort]
    values = scenario(name)
    numbers, tick = dict(values["rules"]), values["window"]["tick"]
    kinds = ("safe_head_on", "safe_overtaking", "safe_crossing", "safe_other")
    numbers["safe"] = (
        ("One", numbers["safe"]) if values["version"] == 1 else ("PerKind", *(numbers[kind] for kind in kinds))
    )
    given = {"tick": tick, "numbers": numbers, "ranks": ("Counted" if ranks else "Ignored",)}
    definitions = Definitions(read("crates", "rule_set", "specs", "RuleTrees.antt"))
    listed = re.findall(r'rule_named \(codes "(\w+)"\) \(tree\.(\w+) ([\w ]+)\)',
                        read("crates", "rule_set", "specs", "NamedTrees.antt"))
    return tick, {
        rule: definitions.call(body, [given[word] for word in words.split()])
        for rule, body, words in listed
        if ranks or rule != "r18"
    }


def shown(page: str, found: Findings) -> Formulas:
    """Returns the formulas of the page: each is in a block whose first line is a word, the rule and the sort. Those
    with ranks that have no block follow from the ones without ranks by the page's table of changes."""
    formulas: Formulas = {}
    for rule, sort, text in re.findall(r"^```formula (\w+) ?([\w ]*)\n(.*?)^```$", page, re.M | re.S):
        if sort not in SORTS or rule in formulas.setdefault(sort, {}):
            found.fault(f"the formula `{rule} {sort}` is of no sort, or is there twice")
        formulas.setdefault(sort, {})[rule] = " ".join(text.split())
    changed = {rule: with_ranks(page, text) for rule, text in formulas.get("", {}).items()}
    formulas["ranks"] = {
        **{rule: text for rule, text in changed.items() if text != formulas[""][rule]},
        **formulas.get("ranks", {})
    }
    return formulas


def with_ranks(page: str, text: str) -> str:
    """Returns a formula without ranks as it is with them, by the page's table of changes; the longest part that fits
    is changed."""
    table = re.search(r"^\| Without ranks \| With ranks \|\n(?:\|.*\n)+", page, re.M)
    rows = re.findall(r"^\| `(.*?)`(?:, elsewhere)? \| `(.*?)` \|$", table[0] if table else "", re.M)
    changes: dict[str, str] = {old.replace("\\|", "|"): new.replace("\\|", "|") for old, new in rows}
    parts = "|".join(re.escape(old) for old in sorted(changes, key=len, reverse=True))
    return re.sub(parts, lambda found: changes[found[0]], text) if parts else text


def compare_tree(name: str, text: str, tick: int, wanted: Tree, found: Findings) -> None:
    """Adds a fault if a text is no formula, or another than the definition's."""
    try:
        if Text(text, tick).tree() != wanted:
            found.fault(f"the formula `{name}` is not the definition's")
    except (ValueError, IndexError) as error:
        found.fault(f"the formula `{name}` is none: {error}")


def compare_trees(formulas: Formulas, found: Findings) -> None:
    """Compares each formula of the page with the definitions; none may be missing, and none beyond the rules."""
    plain = trees("")[1]
    for sort in SORTS:
        tick, wanted = trees(sort)
        texts = formulas.get(sort, {})
        for rule, tree in wanted.items():
            is_its_own = sort == "" or tree != plain.get(rule)
            if rule in texts:
                compare_tree(f"{rule} {sort}", texts[rule], tick, tree, found)
            elif is_its_own and (sort != "version 2" or rule == "r8d"):
                found.fault(f"the page has no formula `{rule} {sort}`")
        for rule in texts.keys() - wanted.keys():
            found.fault(f"no rule has the formula `{rule} {sort}`")


# ---- what the program reports

def written(values: dict[str, int]) -> str:
    """Returns keys with their numbers as TOML."""
    return "".join(f"{key} = {value}\n" for key, value in values.items())


def altered(name: str, sort: str, numbers: dict[str, int], texts: list[tuple[str, str]]) -> str:
    """Returns the scenario of an example with the rules' numbers of the sort, some other numbers altered, and formulas
    at its end."""
    source, ranks = SORTS[sort]
    wanted, values = scenario(source), scenario(name)
    lines = [f"version = {wanted['version']}\n"]
    for table in ("window", "reference", "log", "detect", "act"):
        lines.append(f"[{table}]\n" + written({key: numbers.get(key, value) for key, value in values[table].items()}))
    lines.append("[rules]\n" + written({**wanted["rules"], "ranks": ranks}))
    lines += [f'[[formula]]\nname = "own_{rule}"\ntext = "{text}"\n' for rule, text in texts]
    return "".join(lines)


def rows(report: str, rule: str) -> tuple[list[tuple[str, str]], list[str]]:
    """Returns the verdicts of a rule or of a formula, without its name, and its totals."""
    return re.findall(rf"^verdict,(\d+,\d+),{rule},(\w+,\d+,\d+)$", report,
                      re.M), re.findall(rf"^total,{rule},(.*)$", report, re.M)


def fishing(line: str) -> str:
    """Returns a line of a log in which a vessel with an odd MMSI fishes, by the status of her position report."""
    found = re.fullmatch(r"(.*)!(AIVDM,1,1,,[AB],[123].{5})(.)(.*)\*\w\w(\n?)", line)
    value = SIX_BIT.find(found[3]) if found else -1
    # the six bits are the last two of the MMSI and the four of the status
    if not found or value < 0 or not value & 16:
        return line
    body = found[2] + SIX_BIT[value & 48 | 7] + found[4]
    return f"{found[1]}!{body}*{total(body.encode()):02X}{found[5]}"


def logs(ranks: int) -> Iterator[tuple[str, str]]:
    """Yields the shipped logs, and if ranks count also with vessels that fish: the name of the scenario of each, and
    the log."""
    for name in sorted(name[:-4] for name in os.listdir(path_of("examples")) if name.endswith(".log")):
        lines = read("examples", name + ".log").splitlines(keepends=True)
        yield name, "".join(lines)
        if ranks:
            yield name, "".join(map(fishing, lines))


def audited(program: str, text: str, log: str) -> tuple[str, str]:
    """Returns the report of an audit by a scenario, and the line on standard error if it fails."""
    with tempfile.NamedTemporaryFile("w", suffix=".toml", encoding="utf-8") as out:
        out.write(text)
        out.flush()
        done = subprocess.run([program, "audit", out.name], input=log, capture_output=True, text=True)
    return done.stdout, done.stderr.strip() if done.returncode else ""


def compare_rows(formulas: Formulas, found: Findings) -> None:
    """Audits each formula beside its rule, and compares their rows. Each has to have some row."""
    seen = {(sort, rule): 0 for sort in formulas for rule in formulas[sort]}
    parts = [(sort, list(texts.items())[k:k + FORMULAS]) for sort, texts in formulas.items() if sort in SORTS
             for k in range(0, len(texts), FORMULAS)]
    for (sort, texts), numbers in itertools.product(parts, ALTERED):
        for name, log in logs(SORTS[sort][1]):
            report, fault = audited(found.program, altered(name, sort, numbers, texts), log)
            if fault:
                found.fault(f"a scenario with formulas of the page is refused: {fault}")
                return
            for rule, _ in texts:
                wanted, own = rows(report, rule), rows(report, "own_" + rule)
                seen[sort, rule] += len(wanted[0])
                if wanted != own or len(own[1]) != 1:
                    found.fault(f"{name}, {numbers}: the rows of `{rule} {sort}` are not those of its formula")
    for (sort, rule), count in seen.items():
        if count == 0:
            found.fault(f"no run has a row of `{rule} {sort}`")


# ---- numbers and drawings

def values_shipped() -> dict[str, list[int]]:
    """Returns what the shipped scenarios have for each number of detection, action and the rules."""
    values: dict[str, list[int]] = {"rules.ranks": [0]}
    for name in scenarios():
        for table, keys in scenario(name).items():
            for key, value in keys.items() if table in ("detect", "act", "rules") else ():
                values.setdefault(f"{table}.{key}", []).append(value)
    return values


def compare_numbers(page: str, found: Findings) -> None:
    """Compares the table of numbers with the shipped scenarios: each key once, with the least and the greatest
    number."""
    values = values_shipped()
    listed = re.findall(r"^\| `(\w+\.\w+)` \| (.*?) \|", page, re.M)
    for key, stated in listed:
        least, greatest = min(values.get(key, [-1])), max(values.get(key, [-1]))
        found.same(f"`{key}` in the shipped scenarios", stated,
                   f"{least}" if least == greatest else f"{least} to {greatest}")
    found.same("the keys of the table of numbers", sorted(key for key, _ in listed), sorted(values))


def compare_drawings(page: str, found: Findings) -> None:
    """Compares the drawings in docs/ with those that are made."""
    made = draw_rules.drawings()
    found.same("the drawings that the page shows", sorted(set(re.findall(r"\]\((rules_\w+\.svg)\)", page))),
               sorted(made))
    for name, text in made.items():
        if read("docs", name) != text:
            found.fault(f"docs/{name} is not what dev/draw_rules.py makes")


def check(found: Findings) -> None:
    """Adds a fault for each formula, number and drawing that is not as it should be."""
    page = read("docs", "RULES.md")
    formulas = shown(page, found)
    compare_trees(formulas, found)
    compare_rows(formulas, found)
    compare_numbers(page, found)
    compare_drawings(page, found)
