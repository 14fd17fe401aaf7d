"""The lists of mutants: mutants.txt, of the crates, and oracles.txt, of the oracle."""
import sys
from dataclasses import dataclass, field
from pathlib import Path

HERE = Path(__file__).resolve().parent


@dataclass
class Mutant:
    name: str
    speed: bool = False
    edits: list = field(default_factory=list)  # of file, old text, new text

    @property
    def crate(self):
        return self.name.split("/")[0]

    def apply(self, folder):
        """Applies the edits to the files of a folder: a copy of the crate, or of the oracle."""
        for file, old, new in self.edits:
            text = (folder / file).read_text()
            if text.count(old) != 1:
                sys.exit(f"{self.name}: the old text is {text.count(old)} times in {file}: {old}")
            (folder / file).write_text(text.replace(old, new))


def read(name="mutants.txt"):
    """Returns the mutants of a list, in its order."""
    found = []
    for line in (HERE / name).read_text().splitlines():
        mark, text = line[:2], line[2:].replace("⏎", "\n")
        if mark == "@ ":
            file = text
        elif mark == "- ":
            old = text
        elif mark == "+ ":
            found[-1].edits.append((file, old, text))
        elif line == "speed":
            found[-1].speed = True
        elif line and mark != "# ":
            found.append(Mutant(line.split(": ", 1)[0]))
            file = "src/lib.rt"
    return found


def chosen(names):
    """Returns the mutants of that name or of a crate of that name, or all if no name is given."""
    every = read()
    for name in names:
        if not any(name in (mutant.name, mutant.crate) for mutant in every):
            sys.exit(f"no mutant or crate {name}")
    return [mutant for mutant in every if not names or mutant.name in names or mutant.crate in names]
