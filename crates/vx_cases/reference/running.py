"""A whole run of `vxrun` over a host in memory: what stands on out and on err, and the status (README.md)."""
from dataclasses import dataclass, field

from json_text import printed
from meaning import Evaluation, Open
from reading import Refused, plan_of

FILE_LIMIT = 16_777_216
DEFAULTS = {"--capacity": 268_435_456, "--max": 268_435_456, "--unit": 65_536, "--batch": 256, "--drivers": 1, "--mode": "run"}


@dataclass
class Sink:
    """Takes so many bytes at a time; its writes are numbered from 0, and those listed fail."""
    takes: int = 2**32 - 1
    fails: list = field(default_factory=list)
    taken: bytes = b""
    calls: int = 0

    def give_all(self, piece: bytes) -> bool:
        """Writes until all was taken, or a write fails."""
        while piece:
            self.calls += 1
            if self.calls - 1 in self.fails:
                return False
            self.taken += piece[:self.takes]
            piece = piece[self.takes:]
        return True


@dataclass
class Host:
    """Files by name, of two of one name the first; the reads listed fail."""
    files: list = field(default_factory=list)
    read_fails: list = field(default_factory=list)
    out: Sink = field(default_factory=Sink)
    err: Sink = field(default_factory=Sink)

    def read(self, name: str):
        """The bytes of a name, or nothing. A run reads once."""
        if 0 in self.read_fails:
            return None
        return next((data for known, data in self.files if known == name), None)


def row_text(row) -> str:
    return "[" + ",".join(map(printed, row)) + "]"


def outcome(root) -> tuple:
    """The status, the text behind the head of the section, and whether the order of its rows is settled."""
    evaluation = Evaluation()
    told = evaluation.answer(root)
    if told.dealt:
        raise Open("how rows are dealt out")
    if len({node for node, _, _ in evaluation.faults}) > 1:
        raise Open("which node's fault is met")
    if evaluation.faults:
        node, row, code = evaluation.faults[0]
        return 1, f"error fault node={node} code={code} row={row_text(row)}\n", True
    return 0, f"ok {len(told.rows)}\n" + "".join(row_text(row) + "\n" for row in told.rows), told.is_settled


def run_file(name: str, host: Host) -> tuple:
    data = host.read(name)
    if data is None or len(data) > FILE_LIMIT:
        host.err.give_all(f"vxrun: {name}: {'cannot be read' if data is None else 'too big'}\n".encode())
        return 6, True
    try:
        status, text, is_settled = outcome(plan_of(data))
    except Refused as refusal:
        host.err.give_all(f"vxrun: {name}: {refusal}\n".encode())
        return 3, True
    return (status if host.out.give_all(f"== 0 {name}\n{text}".encode()) else 4), is_settled


def file_named(words: list):
    """The file that lawful words name. Every option but `--workers` must have its default, since no other is built."""
    options, names, rest = {}, [], list(words[1:])
    while rest:
        word = rest.pop(0)
        if word == "--":
            names, rest = names + rest, []
        elif not word.startswith("-") or word == "-":
            names.append(word)
        else:
            option, is_joined, value = word.partition("=")
            value = value if is_joined else rest.pop(0) if rest else "-"
            if option in options or option not in (*DEFAULTS, "--workers") or (value.startswith("-") and not is_joined):
                return None
            options[option] = value
    for option, value in options.items():
        if option == "--mode":
            is_lawful = value == "run"
        else:
            is_number = value.isascii() and value.isdigit() and len(value) <= 10
            is_lawful = is_number and (1 <= int(value) <= 16 if option == "--workers" else int(value) == DEFAULTS[option])
        if not is_lawful:
            return None
    return names[0] if len(names) == 1 else None


def run(words: list, host: Host) -> tuple:
    """The status of a run, and whether the order of the rows on out is settled."""
    name = file_named(words)
    if name is None:
        host.err.give_all(b"vxrun: bad words\n")
        return 2, True
    return run_file(name, host)
