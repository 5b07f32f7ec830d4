"""Has processes of Python say which lines they run, as tests/gate/coverage.py measures the tools, however they end."""
import subprocess
import sys
from pathlib import Path

import pytest

import parts
from nixkeep_dev.testing import covered

pytestmark = pytest.mark.needs("python3-coverage")
# The last lines of a module, after three others.
ENDS = {"by itself": ["pass"], "by os._exit": ["os._exit(0)"], "by a signal": ["signal.raise_signal(signal.SIGTERM)"],
        "by a kill of itself": ["os.kill(os.getpid(), signal.SIGKILL)"],
        "as a fork of another": ["if not os.fork():", "    os._exit(0)"],
        "with its files limited": ["resource.setrlimit(resource.RLIMIT_FSIZE, (0, 0))"]}


@pytest.mark.parametrize("how", ENDS)
def test_a_process_that_ends(how, folder):
    file, text = Path(f"{folder}/tools/it.py"), ["import os", "import resource", "import signal", *ENDS[how]]
    file.parent.mkdir()
    file.write_text("\n".join(text))
    environment, numbers = covered.prepare(f"{folder}/measured", folder), {*range(1, len(text) + 1)}
    with covered.listening(covered.place_in(f"{folder}/measured")) as lines:
        ran = subprocess.run([sys.executable, file], env=environment, capture_output=True, text=True)
        parts.until("all of its lines", lambda: lines.by_file.get(str(file)) == numbers, 60)
    assert ran.stderr == ""
    assert covered.percents(lines.by_file, folder) == (100, [("tools/it.py", 100.0)])


def test_what_ran_in_part(folder):
    file = Path(f"{folder}/it.py")
    file.write_text("import os\nif not os:\n    os = None\n    os = 1\n")
    assert covered.percents({str(file): {1, 2}}, folder) == (50, [("it.py", 50.0)])
