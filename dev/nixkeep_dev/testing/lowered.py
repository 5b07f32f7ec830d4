"""Numbers of what the repository has, which may only be lowered, or only be raised: a file of tests/gate/ has them."""
import re
import warnings
from collections.abc import Iterator
from pathlib import Path

from nixkeep_dev.build import program


class Lowered:
    """The numbers of a file, by name: lines `NAME: NUMBER`."""

    better, option, bound = min, "--lower", "at most {:g} are allowed"

    def __init__(self, name: str):
        self.name, self.path = f"tests/gate/{name}", f"{program.HERE}/tests/gate/{name}"
        self.text = Path(self.path).read_text(encoding="utf-8")
        self.kept = {name: float(number) for name, number in re.findall(r"^([\w ]+): ([\d.]+)$", self.text, re.M)}

    def write(self, numbers: dict[str, float]) -> None:
        """Writes these numbers where they are better."""
        for name, number in numbers.items():
            self.kept[name] = self.better(self.kept[name], number)
            self.text = re.sub(rf"^{name}: .*$", f"{name}: {self.kept[name]:g}", self.text, flags=re.M)
        Path(self.path).write_text(self.text, encoding="utf-8")

    def faults(self, numbers: dict[str, float], is_written: bool) -> Iterator[str]:
        """A line for each of all numbers that is worse than the one in the file. Better ones are written there, or a
        warning names them."""
        if {*self.kept} != {*numbers}:
            yield f"{self.name} has other names: {' '.join(sorted({*self.kept} ^ {*numbers}))}"
            return
        if is_written:
            self.write(numbers)
        for name, number in numbers.items():
            kept, what = self.kept[name], f"{self.name}: {name}: {number:g}"
            if self.better(kept, number) != number:
                yield f"{what}, and {self.bound.format(kept)}"
            elif number != kept:
                warnings.warn(f"{what} of {kept:g}; {self.option} writes that")


class Raised(Lowered):
    """The numbers of a file of what there has to be at least."""

    better, option, bound = max, "--raise", "there have to be {:g}"
