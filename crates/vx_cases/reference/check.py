#!/usr/bin/env python3
"""Runs the reference on each case of data/, or of the files named, and tells each that differs from what its file wants.

The cases that were written by hand and the reference are two readings of the same documents; where they differ,
one of them is wrong. A case about which the reference says that the plan leaves something open is told too.
"""
import sys

from cases import DATA, cases_in, sorted_rows
from meaning import Open
from running import run


def difference(case) -> str:
    """What the reference gives in place of what is wanted, or nothing."""
    try:
        status, is_settled = run(case.words_or_usual(), case.host)
    except Open as error:
        return f"it is open {error}"
    out, err = case.host.out.taken, case.host.err.taken
    is_same = sorted_rows(out) == sorted_rows(case.out) if case.any_order else out == case.out
    if (status, err) != (case.status, case.err) or not is_same:
        return f"{status} {out[:2000]!r} {err!r}, wanted {case.status} {case.out[:2000]!r} {case.err!r}"
    if not is_settled and not case.any_order:
        return "its rows come in any order"
    return ""


def main() -> None:
    count, differ, names = 0, 0, set()
    for path in [DATA / name for name in sys.argv[1:]] or sorted(DATA.glob("*.cases")):
        for case in cases_in(path):
            found = "the name stands twice" if case.name in names else difference(case)
            names.add(case.name)
            count += 1
            if found:
                differ += 1
                print(f"{path.name}: {case.name}: {found}")
    print(f"{count} cases, {differ} differ")
    sys.exit(1 if differ else 0)


if __name__ == "__main__":
    main()
