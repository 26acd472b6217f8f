"""What the scripts of this folder share: programs of the repository, and processor seconds of one run."""
import os
import statistics
import subprocess
import sys
from pathlib import Path

TOP = Path(__file__).resolve().parent.parent


def is_current(program: Path) -> bool:
    """Whether a program is there and no source is newer than it."""
    if not program.exists():
        return False
    built = program.stat().st_mtime
    sources = [TOP / "crates.txt", *(path for part in ("src", "specs", "proofs") for path in TOP.glob(f"crates/*/{part}/**/*"))]
    return all(path.stat().st_mtime <= built for path in sources)


def built(crate: str) -> str:
    """The program of a crate, built by `rt run` where it is missing or older than a source."""
    program = TOP / "crates" / crate / "out" / crate
    if not is_current(program):
        print(f"building {crate}", flush=True)
        program.unlink(missing_ok=True)
        subprocess.run(["rt", "run"], cwd=TOP / "crates" / crate, stdin=subprocess.DEVNULL,
                       stdout=subprocess.DEVNULL, stderr=subprocess.DEVNULL)
        if not program.exists():
            sys.exit(f"{crate} could not be built: `rt run` in its folder tells why")
        program.touch()
    return str(program)


def timed(command: list[str], out: Path, statuses: tuple[int, ...] = (0,)) -> tuple[float, int]:
    """Processor seconds, and the most memory in KiB, of one run with its output in a file."""
    with out.open("wb") as sink:
        child = os.posix_spawn(command[0], command, os.environ,
                               file_actions=[(os.POSIX_SPAWN_DUP2, sink.fileno(), 1),
                                             (os.POSIX_SPAWN_OPEN, 2, "/dev/null", os.O_WRONLY, 0)])
        _, status, usage = os.wait4(child, 0)
    if os.waitstatus_to_exitcode(status) not in statuses:
        sys.exit(f"{command} ended with {os.waitstatus_to_exitcode(status)}")
    return usage.ru_utime + usage.ru_stime, usage.ru_maxrss


Runs = dict[str, list[tuple[float, int]]]


def runs_of(commands: dict[str, list[str]], folder: Path, turns: int, statuses: tuple[int, ...] = (0,)) -> Runs:
    """Each command so many times, in turn; its output stays in the folder."""
    runs: Runs = {name: [] for name in commands}
    for _ in range(turns):
        for name, command in commands.items():
            runs[name].append(timed(command, folder / name, statuses))
    return runs


def best_in(runs: Runs) -> dict[str, tuple[float, int]]:
    """The best run of each command."""
    return {name: min(run) for name, run in runs.items()}


def best_of(commands: dict[str, list[str]], folder: Path, turns: int,
            statuses: tuple[int, ...] = (0,)) -> dict[str, tuple[float, int]]:
    """Each command so many times, in turn, and the best run of each."""
    return best_in(runs_of(commands, folder, turns, statuses))


def ratio(runs: Runs, ours: str, theirs: str, least: dict[str, float] | None = None) -> float:
    """How many times as long one command takes as another, less what each takes at least: the median over the turns,
    in each of which both ran one after the other, since a shared machine changes its speed from second to second."""
    base = least or {ours: 0.0, theirs: 0.0}
    return statistics.median((mine - base[ours]) / (other - base[theirs])
                             for (mine, _), (other, _) in zip(runs[ours], runs[theirs]))


def report(best: dict[str, tuple[float, int]], size: float) -> None:
    """A line for each program over a file of so many megabytes."""
    for name, (seconds, memory) in best.items():
        print(f"{name:18} {seconds:6.3f} s {size / seconds:7.1f} MB/s {memory / 1024:7.1f} MB at most")
