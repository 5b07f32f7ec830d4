"""What a store holds, as dictionaries: objects and roots, what reaches what, and what a collection deletes."""
from collections import namedtuple
from collections.abc import Iterable, Set

# The archive, the set of base names of references, the deriver or None, the content address or None, and name and base
# name of each recorded output.
Object = namedtuple("Object", "archive references deriver address outputs")
# Kinds in their order; tuples of this form are in the order of roots.
PERMANENT, USER, PROFILE, RUNTIME, TEMPORARY = range(5)
Root = namedtuple("Root", "kind target label")
CENSORED = "{censored}"


class Profile:
    def __init__(self, generations: dict[int, str], current: int):
        self.generations, self.current = generations, current


class World:
    def __init__(self):
        self.objects = {}
        # by name; by owner and name; by owner and name
        self.permanent, self.user, self.profiles = {}, {}, {}
        # pairs of label and target; triples of owner, session and target
        self.runtime, self.temporary = set(), set()

    def roots(self) -> list[Root]:
        """All roots in their order."""
        roots = {Root(PERMANENT, base, f"gcroots/{name}") for name, base in self.permanent.items()}
        roots |= {Root(USER, base, f"gcroots/per-user/{user}/{name}") for (user, name), base in self.user.items()}
        for (user, name), profile in self.profiles.items():
            label = f"profiles/per-user/{user}/{name}"
            roots |= {Root(PROFILE, base, f"{label}-{n}-link") for n, base in profile.generations.items()}
        roots |= {Root(RUNTIME, base, label) for label, base in self.runtime}
        roots |= {Root(TEMPORARY, base, f"{{temp:{session}}}") for _, session, base in self.temporary}
        return sorted(roots)

    def next_of(self, base: str, config: dict) -> set[str]:
        """The valid paths to which an edge leads."""
        stored = self.objects[base]
        ends = set(stored.references)
        if config["keep-outputs"]:
            ends |= {output for _, output in stored.outputs}
        if config["keep-derivations"]:
            ends |= {stored.deriver}
        return ends & self.objects.keys()

    def reached(self, base: str, config: dict) -> set[str]:
        """All that a path reaches, itself too."""
        seen, left = set(), [base]
        while left:
            at = left.pop()
            if at not in seen:
                seen.add(at)
                left += self.next_of(at, config)
        return seen

    def roots_of(self, config: dict) -> dict[str, list]:
        """The roots that reach each live path, in their order."""
        by_base, reach = {}, {}
        for root in self.roots():
            if root.target not in reach:
                reach[root.target] = self.reached(root.target, config)
            for base in reach[root.target]:
                by_base.setdefault(base, []).append(root)
        return by_base

    def dead(self, config: dict) -> set[str]:
        return self.objects.keys() - self.roots_of(config).keys()

    def referrers(self, bases: Iterable[str], among: Set[str]) -> set[str]:
        """These paths, and all among the given ones that have a way of references to one of them."""
        reached, grows = set(bases), True
        while grows:
            more = {base for base in among - reached if self.objects[base].references & reached}
            reached, grows = reached | more, bool(more)
        return reached

    def collected(self, config: dict, limit: int | None) -> set[str]:
        """The paths that a collection deletes; with a limit, group by group until their bytes reach it."""
        left, dead = self.objects.keys() - set(), self.dead(config)
        if limit is None:
            return dead
        gone = set()
        while dead and self.size(gone) < limit:
            alone = [base for base in dead
                     if not any(base in self.objects[other].references for other in left - {base})]
            group = {min(alone)} if alone else self.referrers({min(dead)}, left)
            gone, dead, left = gone | group, dead - group, left - group
        return gone

    def size(self, bases: Iterable[str]) -> int:
        return sum(len(self.objects[base].archive) for base in bases)


def seen(roots: Iterable[Root], is_trusted: bool) -> list[tuple[str, str]]:
    """Label and target of each root as a caller sees them."""
    if is_trusted:
        return [(root.label, root.target) for root in roots]
    pairs = [(CENSORED if root.kind in (RUNTIME, TEMPORARY) else root.label, root.target) for root in roots]
    return [*dict.fromkeys(pairs)]
