"""Failures of the tools, each with the line that is printed and an exit status.

The statuses are those of `nixkeep`: 0 done, 1 failed, 2 the words are no command line, 3 refused, 4 denied.
"""
DONE, FAILED, USAGE, REFUSED, DENIED = range(5)


class Stop(Exception):
    """A failure: its line for standard error, without a line feed, and the exit status."""

    def __init__(self, line: str, status: int = FAILED):
        super().__init__(line)
        self.line, self.status = line, status


def refused(number: int, name: str) -> Stop:
    return Stop(f"refused: {number} {name}", REFUSED)


def reason(error: BaseException) -> str:
    """The cause of an error in one line, as the system words it."""
    return str(getattr(error, "strerror", None) or error or type(error).__name__).replace("\n", " ")
