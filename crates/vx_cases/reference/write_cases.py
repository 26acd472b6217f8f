#!/usr/bin/env python3
"""Writes the case files of data/ that the reference makes: `functions.cases` from lists, `drawn_*.cases` from a seed.

What is wanted of each case is what the reference gives; the program has no part in it. Plans about which the
reference says that something is left open are drawn anew.
"""
import itertools
import json

from cases import DATA
from drawing import CELLS, Drawer
from meaning import Open
from reading import FUNCTIONS, KINDS
from running import Host, run

SEED = 20261202
INTS = (None, -2**63, -7, -1, 0, 1, 2, 2**63 - 1)
GRID = {"int": INTS, "bool": (None, False, True), "text": (None, "", "a", "ab", "b", "é", "abcdefghijklm")}


def text_of(value) -> str:
    return json.dumps(value, separators=(",", ":"), ensure_ascii=False)


def file_of(root) -> bytes:
    return text_of({"plan": root}).encode()


def lines_of(prefix: str, text: bytes) -> list:
    """A text as lines of a case; its last line may lack its line feed."""
    whole, _, rest = text.decode().rpartition("\n")
    lines = [f"{prefix} {line}" for line in whole.split("\n")] if whole else []
    return [*lines, f"{prefix}-end {rest}"] if rest else lines


def is_plain(data: bytes) -> bool:
    """Whether a file can stand in a line of a case file."""
    try:
        return data.decode().isprintable()
    except UnicodeDecodeError:
        return False


def case_of(name: str, data: bytes):
    """The lines of a case over one file, and its status and host. Raises Open where something is left open."""
    host = Host(files=[("p.json", data)])
    status, is_settled = run(["vxrun", "p.json"], host)
    given = f"file p.json {data.decode()}" if is_plain(data) else f"bytes p.json {data.hex()}"
    wanted = [f"status {status}", *lines_of("out", host.out.taken), *lines_of("err", host.err.taken)]
    return [f"case {name}", given, *wanted, *([] if is_settled else ["any-order"])], status, host


def write(name: str, about: str, cases: list) -> None:
    blocks = [[f"# {about}", "# Written by reference/write_cases.py; change that and not this file."], *cases]
    (DATA / name).write_text("\n\n".join("\n".join(block) for block in blocks) + "\n")
    print(f"{name}: {len(cases)} cases")


# ---- each function over a grid of values

def over_grid(name: str, kinds: list) -> dict:
    """A project of a function, tried, over each combination of values."""
    call = [name, *(["col", place] for place in range(len(kinds)))]
    rows = [list(cells) for cells in itertools.product(*(GRID[kind] for kind in kinds))]
    return {"node": "project", "id": 1, "exprs": [["try", call], ["is_null", ["try", call]]],
            "source": {"node": "values", "id": 0, "kinds": kinds, "rows": rows}}


def functions() -> list:
    cases = []
    for name, (takes, _) in FUNCTIONS.items():
        for kind in KINDS if "a" in takes.split() or takes == "?" else ("int",):
            kinds = [{"a": kind, "?": kind}.get(word, word) for word in takes.split()]
            cases.append(case_of(f"{name} over {' '.join(kinds)}", file_of(over_grid(name, kinds)))[0])
    return cases


# ---- drawn plans

def plans(count: int, with_fault: bool) -> list:
    """So many drawn plans that meet a fault, or that have an answer, which is mostly not without rows."""
    drawer, cases, bare = Drawer(SEED + with_fault), [], 0
    kind = "fault" if with_fault else "plan"
    while len(cases) < count:
        try:
            lines, status, host = case_of(f"drawn {kind} {len(cases)}", file_of(drawer.plan()))
        except Open:
            continue
        is_bare = b"ok 0\n" in host.out.taken
        if status == with_fault and not (is_bare and bare * 8 > count):
            bare += is_bare
            cases.append(lines)
    return cases


def refusals(wanted: dict) -> list:
    """Drawn plans with changes that are refused, so many for each refusal."""
    drawer, cases, found = Drawer(SEED + 2), [], {name: 0 for name in wanted}
    while any(found[name] < wanted[name] for name in wanted):
        root = drawer.changed(drawer.plan())
        try:
            lines, status, host = case_of(f"drawn refusal {len(cases)}", file_of(root))
        except Open:
            continue
        words = host.err.taken.decode().split()
        name = words[2] if status == 3 else ""
        name = words[-1] if name == "P4" else name
        if found.get(name, 0) < wanted.get(name, 0):
            found[name] += 1
            cases.append(lines)
    return cases


def spoilt_bytes(count: int) -> list:
    """Drawn plans with a byte less, more or other; mostly no JSON, now and then another plan."""
    drawer, cases = Drawer(SEED + 3), []
    while len(cases) < count:
        data = bytearray(file_of(drawer.plan()))
        place = drawer.draw.randrange(len(data))
        change = drawer.draw.randrange(3)
        if change < 2:
            del data[place]
        if change > 0:
            data.insert(place, drawer.draw.choice(b'"\\[]{},:-0x1e.\x00\x7f\xc3\xa9\xff \n'))
        try:
            cases.append(case_of(f"drawn bytes {len(cases)}", bytes(data))[0])
        except Open:
            continue
    return cases


def main() -> None:
    write("functions.cases", "Each function of expressions, tried, over each combination of a few values.", functions())
    write("drawn_plans.cases", "Small plans drawn from a seed.", plans(120, False) + plans(30, True))
    write("drawn_refusals.cases", "Plans drawn from a seed, with changes that are refused.",
          refusals({"P2": 30, "P3": 10, "T1": 12, "T2": 12, "T3": 8, "T4": 10, "P5": 16, "P6": 4, "P7": 12}))
    write("drawn_bytes.cases", "Plans drawn from a seed, with a byte less, more or other.", spoilt_bytes(40))


if __name__ == "__main__":
    main()
