"""The wrong bodies that are planted by hand, as the scripts of this folder read them: the files crates/NAME/planted/*.edit."""
import re
from pathlib import Path

from scripts import TOP, fail

NEEDED = ("file", "old", "new")
REFUSED = "refused"
FUNCTION = re.compile(r"^( *)(?:pub(?:\(\w+\))? )?(?:const )?fn (\w+)", re.M)
IMPL = re.compile(r"^impl(?:<.*?>)? (?:(\w+)(?:<.*?>)? for )?(\w+)", re.M)


class Planted:
    """A wrong body: a piece of a file, the one in its place, and what refused it when it was last tried: `FUNCTION: GOAL, GOAL`."""

    def __init__(self, path):
        lines = [line.partition(": ") for line in path.read_text().splitlines()]
        said = {word: text for word, _, text in lines}
        if len(said) != len(lines) or {*said, REFUSED} != {*NEEDED, REFUSED}:
            fail(f"{path} is to have one line for each of {', '.join(NEEDED)}, and perhaps one for {REFUSED}")
        self.path, self.name, self.crate = path, path.stem, path.parent.parent
        self.inside, self.old, self.new = Path(said["file"]), said["old"], said["new"]
        self.file, self.refused = self.crate / self.inside, said.get(REFUSED)

    def is_idle(self):
        """Whether it can no longer be applied: what it replaces does not stand once in its file."""
        return self.file.read_text().count(self.old) != 1

    def plant(self, crate):
        """Puts it into this copy of its crate."""
        file = crate / self.inside
        file.write_text(file.read_text().replace(self.old, self.new))

    def function(self):
        """The function in which it stands, as a check prints its path below the crate."""
        above = self.file.read_text().partition(self.old)[0]
        inner, name = list(FUNCTION.finditer(above))[-1].groups()
        if not inner:
            return "::".join([*self.module(self.file), name])
        trait, owner = list(IMPL.finditer(above))[-1].groups()
        return "::".join([*self.module(self.home(owner)), owner + (trait or ""), name])

    def module(self, file):
        """The path of a file's module."""
        return file.relative_to(self.crate / "src").with_suffix("").parts

    def home(self, owner):
        """The file that declares a type of the crate."""
        declared = re.compile(rf"^(?:pub(?:\(\w+\))? )?(?:struct|enum) {owner}\b", re.M)
        return next(file for file in sorted(self.crate.glob("src/**/*.rt")) if declared.search(file.read_text()))

    def note(self, refused):
        """Writes down what refused it."""
        lines = [line for line in self.path.read_text().splitlines() if not line.startswith(f"{REFUSED}: ")]
        self.path.write_text("\n".join([*lines, f"{REFUSED}: {refused}", ""]))


def planted(crate="*"):
    """The wrong bodies planted in a crate, or in all."""
    return [Planted(path) for path in sorted(TOP.glob(f"crates/{crate}/planted/*.edit"))]
