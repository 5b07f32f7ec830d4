"""Compares the outputs of derivation texts with those that Nix shows, over `--count` random derivations
(120).

Nix instantiates expressions into a store of its own. They have several outputs, some with a path known from their
hash and some with none yet, depend on each other and on texts, and hold quotes, backslashes, line feeds, tabs, `$`
and bytes beyond ASCII in builders, arguments and environments. Each `.drv` file that Nix wrote gives the names and
paths of `nix show-derivation` and the paths of `nix-store --query --outputs`. Of texts with one byte changed, or cut
short, one that is taken here and by Nix has the outputs that Nix shows for it. `--libraries FILE` names the program of
crates/bench; else it is proved and built. Skipped where Nix isn't installed (Debian: nix-bin).
"""
import json
from pathlib import Path

import pytest

from nixkeep_dev.testing import report
from nixkeep_dev.testing.nix import NAME, TOOLS, Nix, literal

pytestmark = pytest.mark.needs(*TOOLS)
COUNT = 120
PIECES = list('"\\\n\t\r$()[], aé雪\U0001f980\x01\x7f') + ["${", "''", "Derive("]
OUTPUTS = ["dev", "lib", "bin", "doc", "man", "debug", "a", "z9_+", "x-y"]
SPOILED = 3


def random_text(rng):
    return "".join(rng.choices(PIECES, k=rng.choice([0, 1, 2, 5, 20, 200])))


def random_name(rng):
    return "".join(rng.choices(NAME, k=rng.randrange(1, 30)))


def mention(rng, made):
    """An expression of a string: a text, or one that mentions some output of an earlier derivation, or its file."""
    text = literal(random_text(rng))
    for _ in range(rng.choice([0, 0, 1, 2, 5]) if made else 0):
        number = rng.randrange(len(made))
        kind = rng.random()
        if kind < 0.8:
            text += f' + d{number}."{rng.choice(made[number])}" + {literal(random_text(rng))}'
        elif kind < 0.9:
            text += f" + d{number}.drvPath"
        else:
            text += f' + builtins.toFile "t" {literal(rng.choice(["a", "b", "c"]))}'
    return text


def derivation(rng, number, made, count):
    """The binding of a derivation; its outputs are added to those made.

    Only the last of them may have outputs whose path isn't known yet: what depends on such has none known either.
    """
    outputs, kind = ["out"], rng.random()
    fields = [f"name = {literal(random_name(rng) + str(number))};", 'system = "any";']
    if kind < 0.15:
        digest, mode = "%064x" % rng.getrandbits(256), rng.choice(["flat", "recursive"])
        fields.append(f'outputHash = "{digest}"; outputHashAlgo = "sha256"; outputHashMode = "{mode}";')
    else:
        outputs = rng.sample(OUTPUTS, rng.randrange(len(OUTPUTS))) + ["out"]
        rng.shuffle(outputs)
        fields.append("outputs = [ " + " ".join(literal(o) for o in outputs) + " ];")
        if number > count * 0.8 and kind < 0.3:
            fields.append('__contentAddressed = true; outputHashAlgo = "sha256"; outputHashMode = "recursive";')
    fields.append(f"builder = \"/b\" + {mention(rng, made)};")
    fields.append("args = [ " + " ".join(f"({mention(rng, made)})" for _ in range(rng.randrange(4))) + " ];")
    for n in range(rng.randrange(6)):
        fields.append(f"{literal('v%d' % n + random_text(rng)[:9])} = {mention(rng, made)};")
    made.append(outputs)
    return f"d{number} = derivation {{ {' '.join(fields)} }};\n"


def named(outputs):
    """A set of lines `NAME FULLPATH` of outputs as Nix shows them."""
    return {f"{name} {output['path']}" for name, output in outputs.items() if "path" in output}


class Compared:
    def __init__(self, ours, nix):
        self.ours, self.nix = ours, nix

    def one(self, path, theirs):
        """Compares a derivation with its outputs as Nix shows them."""
        text = self.nix.contents(path)
        lines = self.ours("derivations", "outputs", given=text).decode().splitlines()
        report.same(f"the outputs of {path}", sorted(lines), sorted(named(theirs)), text)
        # Where a path isn't known yet, the query has another answer than the text.
        if lines:
            query = self.nix.lines("nix-store", "--query", "--outputs", path)
            report.same(f"the queried outputs of {path}", sorted(query),
                        sorted(line.split(" ")[1] for line in lines), text)

    def spoiled(self, rng, path):
        """Where a text that is spoiled near its outputs or anywhere is taken by both, both show the same outputs."""
        text = self.nix.contents(path)
        start = rng.choice([len(text), text.index(b"]")])
        changed = spoiled(rng, text[:start]) + text[start:]
        mine = self.ours("derivations", "outputs", given=changed)
        if mine in (b"bad-derivation\n", b"double-output\n"):
            return
        file = Path(self.nix.place(path))
        file.chmod(0o644)
        file.write_bytes(changed)
        ran = self.nix.ran("nix", "show-derivation", path)
        file.write_bytes(text)
        try:
            outputs = json.loads(ran.stdout)[path]["outputs"] if ran.returncode == 0 else None
        except ValueError:
            return
        # Of an output with a hash Nix shows the path that it computes, not the one that is written.
        if outputs is not None and not any("hash" in output for output in outputs.values()):
            report.same("the outputs of a spoiled text", set(mine.decode().splitlines()), named(outputs), changed)


def spoiled(rng, text):
    """The text cut short, or with one byte changed to another or to one that means something, or one byte twice."""
    where, kind = rng.randrange(len(text)), rng.random()
    if kind < 0.1:
        return text[:where]
    byte = rng.choice(b'"\\,()[]/-.nrtx0D') if kind < 0.5 else text[where] ^ (1 << rng.randrange(8))
    return text[:where] + bytes([byte]) + text[where + rng.randrange(2) :]


def test_derivations(libraries, folder, rng, count):
    made, count, all_of_them = [], count or COUNT, f"{folder}/all.nix"
    nix = Nix(folder, "nix-command ca-derivations")
    compared = Compared(libraries, nix)
    bindings = "".join(derivation(rng, at, made, count) for at in range(count))
    names = " ".join(f"d{at}" for at in range(count))
    Path(all_of_them).write_text(f"let {bindings} in [ {names} ]\n", encoding="utf-8")
    paths = sorted({line.split("!")[0] for line in nix.lines("nix-instantiate", all_of_them)})
    for path, shown in json.loads(nix("nix", "show-derivation", *paths)).items():
        compared.one(path, shown["outputs"])
    for _ in range(SPOILED * count):
        compared.spoiled(rng, rng.choice(paths))
    nix.clear()
