"""Makes docs/overview.png: the page of nixkeep-overview over a store that this makes by commands of the program.

    bin/picture [--program FILE] [--to FILE]

The store has files of this repository, with references, roots, profiles and a session of three users. Needs chromium
and python3-jinja2.
"""
import shutil
import subprocess
import sys
import tempfile
from pathlib import Path

from nixkeep_dev.build.program import HERE
from nixkeep_dev.testing import report
from nixkeep_dev.testing.store import Store

WIDTH, HEIGHT = 900, 575
CONFIG = 'trusted-users = ["build"]\n'
# What is added: the user, the name, a file of the repository, and the names of what it refers to.
ADDED = [
    ("ann", "nginx.conf", "examples/team/nginx.conf", []),
    ("ann", "deploy", "examples/team/try", ["nginx.conf"]),
    ("bob", "guide.md", "docs/GUIDE.md", []),
    ("bob", "handbook", "docs/OPERATING.md", ["guide.md", "nginx.conf"]),
    ("build", "app-2.3", "release/nixkeep.xz", []),
    ("build", "app-2.4", "tests/stores/release-1.0.0.tar.xz", []),
    ("build", "bundle-2.3", "docs/REFERENCE.md", ["app-2.3", "handbook"]),
    ("build", "bundle-2.4", "docs/MODEL.md", ["app-2.4", "handbook", "deploy"]),
    ("carl", "experiment", "docs/SOUND_FILES.md", ["app-2.3"]),
    ("carl", "draft", "docs/FILE_FORMAT.md", []),
]
# What keeps them: the user, and the words of a command with a name in place of its path.
KEPT = [
    ("build", "root", "--permanent", "release", "bundle-2.3"),
    ("ann", "profile", "set", "tools", "deploy"),
    ("bob", "profile", "set", "tools", "handbook"),
    ("bob", "profile", "set", "tools", "bundle-2.4"),
    ("bob", "root", "reading", "guide.md"),
    ("carl", "temp", "add", "7", "experiment"),
]


def fill(store, options):
    paths = {}
    for user, name, file, references in ADDED:
        words = ["add-text", name, *(paths[reference] for reference in references)]
        paths[name], = store.lines(*words, given=Path(HERE, file).read_bytes(), user=user, options=options)
    for user, *words in KEPT:
        store(*words[:-1], paths[words[-1]], user=user, options=options)


def take(browser, page, to):
    """A picture of the beginning of a page."""
    with tempfile.TemporaryDirectory() as room:
        words = [browser, "--headless=new", "--no-sandbox", "--disable-gpu", "--hide-scrollbars",
                 f"--user-data-dir={room}", f"--window-size={WIDTH},{HEIGHT}", f"--screenshot={room}/page.png", page]
        subprocess.run(words, stdout=subprocess.DEVNULL, stderr=subprocess.DEVNULL, timeout=120, check=True)
        shutil.copy(f"{room}/page.png", to)


def main() -> None:
    parser = report.parser(__doc__)
    parser.add_argument("--program", metavar="FILE", help="the program; else the one that bin/nixkeep runs")
    parser.add_argument("--to", metavar="FILE", default=f"{HERE}/docs/overview.png", help="the picture")
    words = parser.parse_args()
    program = report.program_file(words)
    if not (browser := shutil.which("chromium")):
        sys.exit("bin/picture: needs chromium")
    with tempfile.TemporaryDirectory() as folder:
        store, page = Store(program, f"{folder}/store.db"), f"{folder}/page.html"
        options = ["--config", f"{folder}/red.toml"]
        Path(options[1]).write_text(CONFIG)
        fill(store, options)
        overview = [f"{HERE}/tools/nixkeep-overview", *options, "--db", store.path, "--output", page]
        subprocess.run(overview, check=True)
        take(browser, page, words.to)


if __name__ == "__main__":
    main()
