"""The blocks of commands on the pages of the repository, which the cases run."""
import re

# What a block of commands alone may be called. A block without a name is one of commands if it begins with `$ `.
SHELLS = ("sh", "bash", "zsh", "shell", "console")


def command_blocks(page: str) -> dict[str, list]:
    """The blocks of commands by section: for each heading the kind (empty, or one of SHELLS) and the text of each."""
    blocks, section = {}, ""
    for heading, kind, text in re.findall(r"^#+ +(.*?) *$|^```(\w*)\n(.*?)^```$", page, re.M | re.S):
        if heading:
            section = heading
        elif kind in SHELLS or not kind and text.startswith("$ "):
            blocks.setdefault(section, []).append((kind, text))
    return blocks
