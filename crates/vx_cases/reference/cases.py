"""Case files: one fact a line, as this crate's README.md says."""
from dataclasses import dataclass, field
from pathlib import Path

from running import Host

DATA = Path(__file__).resolve().parent.parent / "data"


@dataclass
class Case:
    """What a run is given, and what is wanted of it."""
    name: str
    words: list = None
    host: Host = field(default_factory=Host)
    any_order: bool = False
    status: int = None
    out: bytes = b""
    err: bytes = b""

    def words_or_usual(self) -> list:
        return ["vxrun", "p.json"] if self.words is None else self.words


def add_to_sink(case: Case, name: str, what: str, rest: str) -> None:
    """A fact on out or err: how it takes bytes, or what it is wanted to have taken."""
    sink = getattr(case.host, name)
    first, _, more = rest.partition(" ")
    if what == "-takes":
        sink.takes = int(rest)
    elif what == "-fails":
        sink.fails.append(int(rest))
    else:
        pieces = {"": rest + "\n", "-end": rest, "-more": more * int(first) if what == "-more" else ""}
        if what not in pieces:
            raise ValueError("unknown word")
        setattr(case, name, getattr(case, name) + pieces[what].encode())


def add_fact(case: Case, word: str, rest: str) -> None:
    files = case.host.files
    first, _, more = rest.partition(" ")
    if word[:3] in ("out", "err"):
        add_to_sink(case, word[:3], word[3:], rest)
    elif word == "no-words":
        case.words = []
    elif word == "word":
        case.words = [*(case.words or []), rest]
    elif word == "file":
        files.append((first, more.encode()))
    elif word == "bytes":
        files.append((first, bytes.fromhex(more)))
    elif word == "more":
        name, data = files.pop()
        files.append((name, data + int(first) * more.encode()))
    elif word == "read-fails":
        case.host.read_fails.append(int(rest))
    elif word == "status":
        case.status = int(rest)
    elif word == "any-order":
        case.any_order = True
    else:
        raise ValueError("unknown word")


def cases_in(path: Path) -> list:
    cases = []
    for number, line in enumerate(path.read_bytes().decode().split("\n"), 1):
        word, _, rest = line.partition(" ")
        try:
            if word == "case":
                cases.append(Case(rest))
            elif word not in ("", "#"):
                add_fact(cases[-1], word, rest)
        except (ValueError, IndexError) as error:
            raise SystemExit(f"{path.name}:{number}: {error}") from error
    return cases


def sorted_rows(text: bytes) -> list:
    """The lines of an output, those after its first two sorted."""
    lines = text.split(b"\n")
    return lines[:2] + sorted(lines[2:])
