"""What comes of a wrong body or definition that is tried, and whether it is what has to come."""
import enum
from dataclasses import dataclass

from nixkeep_dev.sources import bodies


class Kind(enum.Enum):
    """Whether an edit is refused, and what the refusal is worth."""

    REFUSED = "refused for a goal that is wrong"
    BY_SEARCH = "refused by a search alone"
    EMPTY = "refused for what it leaves out"
    SURVIVES = "not refused"
    NOT_TRIED = "not tried"


@dataclass(frozen=True)
class Verdict:
    """What came of an edit, and why it isn't refused or, of one that changes nothing, why it is."""

    kind: Kind
    why: str = ""

    def is_refusal(self) -> bool:
        return self.kind in (Kind.REFUSED, Kind.BY_SEARCH)


def is_known(edit: bodies.Edit) -> bool:
    """Whether a list excuses an edit that isn't refused or, of those that change nothing, one that is."""
    return edit.key() in bodies.excused(bodies.EXCUSED if edit.is_equal() else bodies.SURVIVORS)


def wrong(edit: bodies.Edit, verdict: Verdict) -> str | None:
    """What is wrong with what came of an edit; None where it is refused or, if it changes nothing, survives, and where
    it isn't so and a list says why."""
    if verdict.kind == Kind.NOT_TRIED:
        return verdict.why
    is_as_meant = verdict.is_refusal() != edit.is_equal()
    if is_as_meant != is_known(edit):
        return None
    if not is_as_meant:
        return f"it changes nothing, and is refused: {verdict.why}" if edit.is_equal() else verdict.why
    return "it survives, and is excused" if edit.is_equal() else f"it is refused, and {bodies.SURVIVORS} has it"
