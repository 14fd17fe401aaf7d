"""The listings of tests/vectors, asked by `rt try` of the code in a copy of the crates. tests/vectors/README.md says what a
listing is, and asked.txt, the program that makes the calls, what it reads and prints."""
import re
import shutil
import struct
import subprocess
from dataclasses import dataclass
from itertools import accumulate
from pathlib import Path

ROOT = Path(__file__).resolve().parents[2]
LISTINGS = sorted(path.name for path in (ROOT / "tests/vectors").glob("*.txt"))

# The calls by their numbers in asked.txt, each with the lists that it reads beside the job, and the list that it is lent.
CALLS = {
    "check": (["starts", "facts"], None),
    "fill": (["starts"], "buffer"),
    "find": (["starts", "facts"], "buffer"),
    "trial_begin": ([], "trial"),
    "trial_start": ([], "trial"),
    "trial_on": ([], "trial"),
    "trial_show": (["trial"], "buffer"),
}

# The fields of an answer, as bits from the lowest on.
FIELDS = {"number": (56, 8), "position": (40, 16), "length": (24, 16), "count": (0, 24)}


class NotRun(Exception):
    """The program was not run: it was not built, say."""


@dataclass
class Call:
    """A call of a listing: its place and its case, its bytes in the file `calls`, and what the listing says of it."""

    place: str
    case: str
    name: str
    data: bytes
    front: list  # the words that are lent for writing, before the noise
    answer: dict
    written: list  # each what the lent list may begin with; none if the listing leaves the reading open


def words_of(text):
    """Words in hexadecimal: `W`, `W*N` for N times W, `W+S*N` for N words from W on, each S more."""
    found = []
    for item in text.split():
        first, _, times = item.partition("*")
        first, _, step = first.partition("+")
        found += [int(first, 16) + int(step or "0", 16) * i for i in range(int(times or "1"))]
    return found


def noise(i):
    return 0x5EED0000 + 7 * i


def listed(listing):
    """The calls of a listing."""
    lists = {"job": [], "starts": [], "facts": [], "trial": []}
    numbers, found, case = {"action": 0, "buffer": 4096, "length": 4098}, [], ""
    for number, line in enumerate((ROOT / "tests/vectors" / listing).read_text().splitlines(), 1):
        key, _, rest = line.partition(" ")
        if key == "case":
            case = rest
        elif key in lists:
            lists[key] = words_of(rest)
        elif key in numbers:
            numbers[key] = int(rest, 16 if key == "action" else 10)
        elif key == "or":
            found[-1].written.append(words_of(rest))
        elif line and key[0] != "#":
            found.append(call_of(f"{listing}:{number}", case, key, rest, lists, numbers))
    return found


def call_of(place, case, name, rest, lists, numbers):
    """The call of a line `NAME NUMBER [at POSITION] [count COUNT] [writes WORDS]`."""
    reads, lends = CALLS[name]
    given = lists["trial"][: numbers["length"]]
    trial = given + [noise(i) for i in range(len(given), numbers["length"])] if "trial" in reads else []
    front, length = {None: ([], 0), "buffer": ([], numbers["buffer"]), "trial": (given, numbers["length"])}[lends]
    read = [lists["job"], *(trial if key == "trial" else lists[key] for key in reads), [], []][:3]
    words = [list(CALLS).index(name), numbers["action"], length, *map(len, [*read, front])]
    data = b"".join(struct.pack(f"<{len(some)}I", *some) for some in [words, *read, front])
    said, _, writes = rest.partition(" writes")
    told = dict(zip(["number", *said.split()[1::2]], map(int, said.split()[::2])))
    answer = {"number": told["number"], "position": told.get("at", 0), "count": told.get("count", 0)}
    open_reading = name == "find" and answer["number"] == 0 and not writes
    return Call(place, case, name, data, front, answer, [] if open_reading else [words_of(writes)])


def difference(call, line):
    """What a printed line has of the call that the listing has not, or None."""
    packed, *more = [int(word, 16) for word in line.split()]
    after = [word & 0xFFFFFFFF for word in accumulate(more)]
    given = {field: packed >> low & (1 << bits) - 1 for field, (low, bits) in FIELDS.items()}
    for field, right in call.answer.items():
        if given[field] != right:
            return f"the {field} is {given[field]}, not {right}"
    tells_length = call.name in ("fill", "find", "trial_show")
    written = [(changed(call.front, words), len(words) if tells_length else 0) for words in call.written]
    if (after, given["length"]) in written or not written and len(after) <= given["length"]:
        return None
    return "other words are written"


def changed(front, written):
    """The words of a lent list up to the last that is another one when these are written to its front."""
    end = len(written)
    while end > 0 and written[end - 1] == (front[end - 1] if end <= len(front) else noise(end - 1)):
        end -= 1
    return written[:end]


def copied(room, mutants=()):
    """Copies what `rt try` and `rt check` need to a folder, with the edits of mutants."""
    shutil.copytree(ROOT / "crates", room / "crates", ignore=shutil.ignore_patterns("out", "must-fail"))
    shutil.copy(ROOT / "crates.txt", room)
    for mutant in mutants:
        mutant.apply(room / "crates" / mutant.crate)


def tried(folder, data):
    """Runs the program of the folder by `rt try` on files of those names. Returns what it prints and, if it fails, how."""
    words = [part for name, path in data.items() for part in ("--data", f"{name}={path}")]
    ran = subprocess.run(["rt", "try", *words], cwd=folder, stdin=subprocess.DEVNULL, capture_output=True, text=True, errors="replace")
    end = re.search(r"(?m)^checked: (.*)", ran.stderr)
    if not end:
        raise NotRun(f"rt try did not run the program in {folder}:\n{ran.stderr[:2000]}")
    return ran.stdout, end[1].split(" at=")[0] if ran.returncode else None


def differences(room, listings):
    """Makes the calls of the listings on the copy in the folder. Returns the place, the case and the difference of each that differs."""
    crate, calls = room / "crates/asked", [call for listing in listings for call in listed(listing)]
    (crate / "src").mkdir(parents=True)
    shutil.copy(ROOT / "tests/mutation/asked.txt", crate / "src/main.rt")
    with open(room / "crates.txt", "a") as crates:
        crates.write("asked: planreader\n")
    (room / "calls").write_bytes(b"".join(call.data for call in calls))
    printed, failed = tried(crate, {"calls": room / "calls"})
    if failed:
        return [("rt try", "the program ends", failed)]
    lines = printed.splitlines()
    if len(lines) != len(calls):
        raise NotRun(f"{len(lines)} answers to {len(calls)} calls")
    return [(call.place, call.case, told) for call, line in zip(calls, lines) if (told := difference(call, line))]


# Files that planread is given, and what it must print, by a name. An example's files are named by its folder.
LONG, SHORT = bytes(32 * 1024 + 4), bytes(8)
PLANREAD = {
    "a job of more than 32 KiB": ({"job.w32": LONG, "plan.w32": SHORT}, "bad file\n"),
    "a plan of more than 32 KiB": ({"job.w32": SHORT, "plan.w32": LONG}, "bad file\n"),
    "a job of six bytes": ({"job.w32": SHORT[:6], "plan.w32": SHORT}, "bad file\n"),
    "no plan": ({"job.w32": SHORT}, "bad file\n"),
    **{
        f"examples/{path.parent.name}": (
            {name: (path.parent / name).read_bytes() for name in ("job.w32", "plan.w32")},
            path.read_text(),
        )
        for path in sorted((ROOT / "examples").glob("*/expected.txt"))
    },
}


def printed(room, name):
    """Runs planread of the copy in the folder on files of that name. Returns what it prints and, if it fails, how."""
    for file, data in PLANREAD[name][0].items():
        (room / file).write_bytes(data)
    return tried(room / "crates/planread", {file: room / file for file in PLANREAD[name][0]})
