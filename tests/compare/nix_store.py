"""Compares stores of random graphs, `--count` of them (5), with stores of Nix that have the same objects.

Nix makes the objects: folders, texts that refer to them, derivations over these, and outputs of some, which are
registered with references and mostly a deriver. `nixkeep` gets their contents, texts and folders by an add and
outputs by an import, and then roots. Compared are

  - the path of each add, and the list of all;
  - the archive, the record (Nix's as `nix copy` writes it, except the URL) and the listing (`nix store ls`) of each;
  - the live and the dead under each of the four keep settings, and the roots that reach each path; Nix has each root
    as a link of the same name under its folder of state;
  - what is left after a collection.

No object has a deriver that doesn't record it as its output, and roots of a path are compared where each output has its
deriver: in any other case Nix's own walks differ from one another. Skipped where Nix isn't installed (Debian: nix-bin).
"""
import graphlib
import json
import os
import random
import subprocess
from pathlib import Path

import pytest

from nixkeep_dev.testing import folders, nar
from nixkeep_dev.testing.http_messages import lines
from nixkeep_dev.testing.nix import NAME, TOOLS, Nix, apart
from nixkeep_dev.testing.report import same
from nixkeep_dev.testing.store import Store

pytestmark = pytest.mark.needs(*TOOLS)
COUNT = 5
STORE = nar.STORE


# ---- the objects, which Nix makes


def name(rng, at):
    return "n" + "".join(rng.choice(NAME + ".-") for _ in range(rng.randrange(12))) + str(at)


def put_folder(rng, path):
    folders.grow(rng, path, 2, lambda at: f"{rng.choice(['a', 'b c', 'é', '~', chr(92)])}{at}",
                 lambda: rng.choice(["a", "/nowhere", "../b c"]),
                 lambda: rng.randbytes(rng.choice([0, 1, 100, 70_000])), (4,), "folder")


def expression(rng, folder, count):
    """A Nix expression of `count` objects, each over some of those before: a list of their paths, and of the outputs
    of derivations."""
    kinds, bindings, paths = {}, [], []
    for at in range(count):
        kind, before = rng.choice(["folder", "text", "text", "derivation", "derivation"]), list(kinds)
        plain = [variable for variable in before if kinds[variable] != "derivation"]
        if kind == "folder":
            put_folder(rng, f"{folder}/folder{at}")
            bindings.append(f'o{at} = "${{builtins.path {{ path = ./folder{at}; name = "{name(rng, at)}"; }}}}";')
        elif kind == "text":
            refs = " ".join(f"${{{variable}}}" for variable in rng.sample(plain, min(len(plain), rng.randrange(4))))
            bindings.append(f'o{at} = builtins.toFile "{name(rng, at)}" "text {at} {refs}\\n";')
        else:
            inputs = " ".join(f"${{{variable}}}" for variable in rng.sample(before, min(len(before), rng.randrange(4))))
            outputs = " ".join(f'"{output}"' for output in ["out", "dev", "lib"][: rng.choice([1, 1, 2, 3])])
            bindings.append(f'o{at} = derivation {{ name = "{name(rng, at)}"; system = "none"; builder = "/none"; '
                            f'inputs = "{inputs}"; outputs = [ {outputs} ]; }};')
        kinds[f"o{at}"] = kind
        paths.append(f"o{at}.drvPath" if kind == "derivation" else f"o{at}")
    made = [variable for variable, kind in kinds.items() if kind == "derivation"]
    outputs = " ".join(f'(map (it: [ {of}.drvPath "${{{of}.${{it}}}}" ]) {of}.outputs)' for of in made)
    return f"let\n{chr(10).join(bindings)}\nin [ [ {' '.join(paths)} ] (builtins.concatLists [ {outputs} ]) ]\n"


def registered(rng, nix, outputs, has_derivers):
    """Makes some of the outputs and registers them: with references to any path, and to themselves."""
    paths, made = list(nix.objects()), []
    for deriver, path in outputs:
        if rng.random() < 0.3:
            continue
        Path(nix.place(path)).write_bytes(rng.randbytes(rng.choice([0, 10, 100_000])))
        dump = nix("nix-store", "--dump", nix.place(path))
        refs = sorted({*rng.sample(paths, min(len(paths), rng.randrange(4))), *([path] if rng.random() < 0.2 else [])})
        if not has_derivers and rng.random() < 0.4:
            deriver = rng.choice(["", f"{STORE}/{'0' * 32}-gone.drv"])
        made.append((path, dump, deriver, refs))
        paths.append(path)
    nix.register(made)


# ---- the same objects in a store of nixkeep


def put_one(nix, kept, path, digest, deriver, refs, is_output):
    _, _, of_name = path.rpartition("/")[2].partition("-")
    dump = nix.archive(path)
    if is_output:
        digits = nix("nix-hash", "--type", "sha256", "--to-base32", digest).decode().strip()
        pairs = [("path", path), ("nar-hash", f"sha256:{digits}"), *(("reference", ref) for ref in refs)]
        came = kept("import", given=lines(*pairs, *[("deriver", deriver)] * bool(deriver), payload=dump))
    elif Path(nix.place(path)).is_dir():
        came = kept("add-source", of_name, *refs, given=dump)
    else:
        came = kept("add-text", of_name, *refs, given=nix.contents(path))
    same(f"the path of {of_name}", came.decode(), f"{path}\n")


def put_roots(rng, nix, kept, paths):
    """Sets roots of each kind, and a link of the same name for each under Nix's folder of state."""
    for at in range(rng.randrange(3)):
        kept("root", "--permanent", f"permanent{at}", rng.choice(paths))
        kept("root", f"own{at}", rng.choice(paths), user=rng.choice(["ann", "bob"]))
        for _ in range(rng.randrange(3)):
            kept("profile", "set", f"profile{at}", rng.choice(paths), user=rng.choice(["ann", "bob"]))
    for line in kept.lines("roots"):
        label, target = line.split(" ")
        Path(f"{nix.state}/{label}").parent.mkdir(parents=True, exist_ok=True)
        os.symlink(target, f"{nix.state}/{label}")


class Graph:
    """A graph in a store of Nix and in one of nixkeep, with its objects, and whether each output has its deriver."""

    def __init__(self, rng, file, folder):
        self.nix, self.kept, self.folder = Nix(folder), Store(file, f"{folder}/store.db"), folder
        count, self.has_derivers = rng.choice([0, 1, 10, 25]), rng.random() < 0.6
        Path(f"{folder}/objects.nix").write_text(expression(rng, folder, count))
        _, outputs = self.nix.value("--read-write-mode", f"{folder}/objects.nix")
        registered(rng, self.nix, outputs, self.has_derivers)
        self.objects = self.nix.objects()
        self.copy()
        if self.objects:
            put_roots(rng, self.nix, self.kept, sorted(self.objects))

    def copy(self):
        """Puts each object into the store of nixkeep, after those that it refers to."""
        refs_of = {path: {*refs} - {path} for path, (_, _, _, refs) in self.objects.items()}
        derivations = {path for path in self.objects if path.endswith(".drv")}
        outputs = {line for path in derivations for line in self.nix.lines("nix-store", "--query", "--outputs", path)}
        for path in graphlib.TopologicalSorter(refs_of).static_order():
            digest, _, deriver, refs = self.objects[path]
            put_one(self.nix, self.kept, path, digest, deriver, refs, path in outputs)


@pytest.fixture(scope="module")
def graphs(program, seed, count, shared_folder):
    rng, made = random.Random(seed), []
    for at in range(count or COUNT):
        os.mkdir(folder := f"{shared_folder}/{at}")
        made.append(Graph(rng, program, folder))
    yield made
    for store in made:
        store.nix.clear()


# ---- what is compared


def compare_objects(graph):
    nix, kept, objects = graph.nix, graph.kept, graph.objects
    same("the list of all paths", kept.lines("list"), sorted(objects))
    nix("nix", "copy", "--all", "--no-check-sigs", "--to", f"file://{graph.folder}/cache?compression=none")
    for path in objects:
        theirs = Path(f"{graph.folder}/cache/{path[len(STORE) + 1:][:32]}.narinfo").read_text().splitlines()
        records = [[line for line in record if not line.startswith("URL: ")]
                   for record in (kept.lines("info", path), theirs)]
        same(f"the record of {path}", *records)
        dump = kept("cat-nar", path)
        same(f"the archive of {path}", dump, nix.archive(path))
        tree = json.loads(nix("nix", "store", "ls", "--json", "--recursive", path))
        ours = subprocess.run([kept.file, "ls"], input=dump, capture_output=True, check=True).stdout
        same(f"the listing of {path}", ours.decode().splitlines(), nar.listing(tree))


def settings(folder, outputs, derivations):
    """The options of both for keep settings."""
    values = {"keep-outputs": str(outputs).lower(), "keep-derivations": str(derivations).lower()}
    Path(path := f"{folder}/keep.toml").write_text("".join(f"{key} = {value}\n" for key, value in values.items()))
    return ["--config", path], [word for pair in values.items() for word in ("--option", *pair)]


def compare_liveness(graph, outputs, derivations):
    nix, kept, (ours, theirs) = graph.nix, graph.kept, settings(graph.folder, outputs, derivations)
    what = f"with keep-outputs {outputs} and keep-derivations {derivations}"
    for word in ("live", "dead"):
        same(f"what is {word} {what}", kept.lines(word, options=ours),
             sorted(nix.lines(*apart(), "nix-store", "--gc", f"--print-{word}", *theirs)))
    for path in graph.objects if graph.has_derivers else []:
        lines = nix.lines(*apart(), "nix-store", "--query", "--roots", path, *theirs)
        links = {line.partition(" -> ")[0] for line in lines}
        same(f"the roots of {path} {what}",
             sorted(line.partition(" ")[0] for line in kept.lines("why", path, options=ours)),
             sorted(str(Path(link).relative_to(nix.state)) for link in links))


def compare_collection(rng, graph):
    nix, kept = graph.nix, graph.kept
    ours, theirs = settings(graph.folder, rng.random() < 0.5, rng.random() < 0.5)
    gone = sorted(nix.lines("nix-store", "--gc", "--print-dead", *theirs))
    nix("nix-store", "--gc", *theirs)
    same("what a collection deletes", kept.lines("gc", options=ours),
         [*gone, f"freed {len(gone)} paths {sum(graph.objects[base][1] for base in gone)} bytes"])
    same("what a collection leaves", kept.lines("list"), sorted(nix.objects()))


def test_objects(graphs):
    """The list of all, and of each object the record, the archive and the listing."""
    for graph in graphs:
        compare_objects(graph)


@pytest.mark.parametrize("outputs", [False, True])
@pytest.mark.parametrize("derivations", [False, True])
def test_what_lives_and_why(graphs, outputs, derivations):
    for graph in graphs:
        compare_liveness(graph, outputs, derivations)


def test_collections(graphs, rng):
    """Each store is collected, so this comes last."""
    for graph in graphs:
        compare_collection(rng, graph)
