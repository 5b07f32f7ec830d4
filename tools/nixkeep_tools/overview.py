"""Who keeps how much of a store, what a collection would free, and why a path is kept."""
import collections
import subprocess
from collections.abc import Callable

from . import store_file
from .store_file import Usage

# The lines that a table has at most; a note says how many more there are.
MOST = 200
DEAD = 50
# The steps of the longest chain that is drawn: a drawing of thousands takes seconds and much memory.
DRAWN = 100

# Some roots together: what they are, how many, and their Usage.
Line = collections.namedtuple("Line", "owner kind count usage")
# A step of a chain: the path, and how the step before keeps it: `root`, `reference`, `output` or `deriver`.
Step = collections.namedtuple("Step", "base by")
# Why a path is kept: its first root and the steps from there, both None for a dead path.
Why = collections.namedtuple("Why", "base root steps")


def sums(weights, count):
    """For each of `count` bits the sum of the weights of the numbers that have it. `weights` are by numbers.

    The sums are kept as their binary digits: the number at N has digit N of all sums. So a weight is added to all sums
    at once, however many bits its number has.
    """
    planes = []
    for number, weight in weights.items():
        for digit in range(weight.bit_length()):
            carry = number if weight >> digit & 1 else 0
            while carry:
                planes += [0] * (digit + 1 - len(planes))
                planes[digit], carry, digit = planes[digit] ^ carry, planes[digit] & carry, digit + 1
    digits = [f"{plane:0{count}b}"[::-1] for plane in planes[::-1]]
    return [int("".join(column), 2) for column in zip(*digits)] if digits else [0] * count


def usages(sizes, count):
    """The Usage of each root. `sizes` are bytes by the numbers whose bits are the roots that reach them."""
    alone = collections.Counter({bits: size for bits, size in sizes.items() if not bits & bits - 1})
    return [Usage(*pair) for pair in zip(sums(sizes, count), sums(alone, count))]


class Overview:
    """The figures of a store. `live` is the set of live paths by the server's own word, or None without a server."""

    def __init__(self, store: store_file.Store, keeps_outputs: bool = False, keeps_derivers: bool = True,
                 live: set[str] | None = None):
        self.store, self.keeps, self.is_served = store, (keeps_outputs, keeps_derivers), live is not None
        self.kept = store_file.edges(store, *self.keeps)
        self.bits = store_file.keepers(store, self.kept)
        self.used = usages(self.sizes(self.bits), len(store.roots))
        # (other settings of the server's, or a change between two questions)
        self.differs = 0 if live is None else len(live ^ {base for base, bits in self.bits.items() if bits})

    def sizes(self, bits: dict[str, int]) -> collections.Counter:
        sizes = collections.Counter()
        for base, mask in bits.items():
            sizes[mask] += self.store.objects[base].size
        return sizes

    def total(self, is_counted: Callable[[int], bool]) -> tuple[int, int]:
        """The number and the bytes of the objects whose roots are such."""
        sizes = [self.store.objects[base].size for base, bits in self.bits.items() if is_counted(bits)]
        return len(sizes), sum(sizes)

    def lines(self) -> list[Line]:
        """The roots by owner and kind, those that keep most first."""
        counts = collections.Counter((root.owner or "", root.kind) for root in self.store.roots)
        groups = {key: at for at, key in enumerate(counts)}
        together = store_file.keepers(self.store, self.kept,
                                      lambda _, root: groups[root.owner or "", root.kind])
        used = usages(self.sizes(together), len(groups))
        lines = [Line(*key, counts[key], used[at]) for key, at in groups.items()]
        return sorted(lines, key=lambda line: (-line.usage.all, -line.usage.alone, line.owner, line.kind))

    def roots(self) -> list[tuple[store_file.Root, Usage]]:
        """Each root with its Usage, largest first."""
        pairs = zip(self.store.roots, self.used)
        return sorted(pairs, key=lambda pair: (-pair[1].all, -pair[1].alone, pair[0].label, pair[0].target))

    def profiles(self, roots: list[tuple[store_file.Root, Usage]]) -> list[tuple]:
        """Pairs of an owner and a profile's name, each with its generations: root, Usage, and whether it is the
        current one."""
        profiles = collections.defaultdict(list)
        for root, used in roots:
            if root.kind == "profile":
                is_current = self.store.current.get((root.owner, root.name)) == root.number
                profiles[root.owner, root.name].append((root, used, is_current))
        return [(key, sorted(profiles[key], key=lambda pair: -pair[0].number)) for key in sorted(profiles)]

    def dead(self) -> list[tuple[str, int]]:
        """The dead paths with their sizes, largest first."""
        dead = [(base, self.store.objects[base].size) for base, bits in self.bits.items() if not bits]
        return sorted(dead, key=lambda pair: (-pair[1], pair[0]))

    def why(self, base: str) -> Why | None:
        """Why a path is kept, or None for a path that isn't there."""
        if base not in self.bits:
            return None
        bits = self.bits[base]
        if not bits:
            return Why(base, None, None)
        root = self.store.roots[(bits & -bits).bit_length() - 1]
        return Why(base, root, self.chain(root.target, base))

    def chain(self, start: str, end: str) -> list[Step]:
        """The shortest chain of objects, each of which keeps the next one."""
        came, left = {start: None}, collections.deque([start])
        while end not in came:
            at = left.popleft()
            for to in self.kept[at]:
                if to not in came:
                    came[to] = at
                    left.append(to)
        steps = []
        while end is not None:
            steps.append(Step(end, self.link(came[end], end)))
            end = came[end]
        return steps[::-1]

    def link(self, base: str | None, to: str) -> str:
        if base is None:
            return "root"
        item = self.store.objects[base]
        if to in item.references:
            return "reference"
        return "output" if self.keeps[0] and to in item.outputs.values() else "deriver"


# ---- the drawing


def quoted(text):
    return '"' + text.replace("\\", "\\\\").replace('"', '\\"') + '"'


def graph(why):
    """The chain as a graph in the language of graphviz."""
    nodes = [f"r [shape=plain label={quoted(why.root.label)}]"]
    nodes += [f"n{at} [label={quoted(step.base[33:])} tooltip={quoted(step.base)}]"
              for at, step in enumerate(why.steps)]
    names = ["r", *(f"n{at}" for at in range(len(why.steps)))]
    edges = [f"{a} -> {b} [label={quoted(step.by)}]" for a, b, step in zip(names, names[1:], why.steps)]
    style = 'bgcolor=transparent; node [shape=box style=rounded fontname="sans-serif"]; '
    style += 'edge [fontname="sans-serif" fontsize=11]'
    return f"digraph why {{ {style}; {'; '.join([*nodes, *edges])} }}"


def drawing(why: Why) -> str | None:
    """The chain as an SVG element, or None if graphviz isn't installed or can't draw it in time."""
    try:
        ran = subprocess.run(["dot", "-Tsvg"], input=graph(why), capture_output=True, text=True, timeout=20, check=True)
    except (OSError, subprocess.SubprocessError):
        return None
    return "<svg" + ran.stdout.partition("<svg")[2]
