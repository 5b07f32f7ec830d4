"""Numbers in the texts of the tools."""


def count_of(number: int, word: str) -> str:
    """A number of things, of which there may be one."""
    return f"{number} {word}" if number == 1 else f"{number} {word}s"
