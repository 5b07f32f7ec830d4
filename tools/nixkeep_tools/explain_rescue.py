"""Writes what is sound in a file to a folder: each object as a body for `nixkeep import`, and the roots as commands."""
import collections
import contextlib
import heapq
import os
import shlex
import shutil

from . import disk_room, paths
from .explain_rows import HASH
from .explain_schema import shown
from .explain_verdict import Examined
from .store_file import FORMS

# How many objects and roots were written, and pairs of a row that is left out and the reason.
Rescued = collections.namedtuple("Rescued", "objects roots left_out")

SCRIPT = """#!/bin/sh
# Makes a store of what nixkeep-explain has rescued from {file}.
# usage: sh restore NEW.db
# The program is $NIXKEEP, or nixkeep on the path. What is in NEW.db already stays.
set -eu
umask 077
here=$(dirname "$0")
store=${{1:?usage: sh restore NEW.db}}
nixkeep() {{ command "${{NIXKEEP:-nixkeep}}" --db "$store" --config "$here/store.toml" "$@"; }}

# Each body goes to one server, so the file is opened once for all of them.
answers=$(
  for body in "$here"/objects/*; do
    [ -e "$body" ] || continue
    printf 'POST /import HTTP/1.1\\r\\nstore-user: root\\r\\ncontent-length: %d\\r\\n\\r\\n' "$(wc -c <"$body")"
    cat "$body"
  done | nixkeep serve | grep -a -E '^(HTTP/1.1 200|refused:|denied:|failed:)' || true
)
imported=$(printf '%s\\n' "$answers" | grep -c '^HTTP' || true)
if [ "$imported" -ne {count} ]; then
  printf '%s\\n' "$answers" | grep -v -e '^HTTP' -e '^$' >&2 || true
  echo "restore: $imported of {count} objects imported" >&2
  exit 1
fi
"""


# ---- what is sound


def bad_objects(objects, faults, partial):
    """Why an object isn't sound by itself, by path."""
    rules = {}
    for fault in faults:
        if fault.table in ("object", "piece", "refs") and fault.row and fault.row[0] in objects.objects:
            # (if the content address is right, the archive is the object's, and the digest alone is wrong)
            if fault.rule != HASH or not objects.is_proved(fault.row[0]):
                rules.setdefault(fault.row[0], fault.rule)
    for base in objects.objects.keys() - objects.checked.keys():
        rules.setdefault(base, "its archive can't be read")
    for base in objects.checked if "refs" in partial else ():
        if not objects.is_proved(base):
            rules.setdefault(base, "not all references can be read, and no content address proves those that can")
    return rules


def in_order(objects, bad):
    """The sound objects, each after those that it refers to, and why others are left out, by path."""
    left_out, waiting = dict(bad), {}
    referrers, ready, ordered = collections.defaultdict(list), [], []
    for base in objects.checked.keys() - bad.keys():
        waiting[base] = {target for target in objects.references[base] if target != base}
        for other in waiting[base]:
            referrers[other].append(base)
        if not waiting[base]:
            ready.append(base)
    heapq.heapify(ready)
    while ready:
        base = heapq.heappop(ready)
        ordered.append(base)
        for other in referrers[base]:
            waiting[other].discard(base)
            if not waiting[other]:
                heapq.heappush(ready, other)
    for base in sorted(waiting.keys() - set(ordered)):
        left_out[base] = f"it refers to {min(waiting[base])}, which is left out or refers back"
    return ordered, left_out


# ---- objects


def body_head(base, objects, store):
    """The lines of a body for `nixkeep import`, and the empty line."""
    _, (_, _, _, deriver, address) = objects.objects[base]
    lines = [f"path: {paths.full(base, store)}", f"nar-hash: {paths.nar_hash(objects.checked[base].digest)}"]
    lines += [f"reference: {paths.full(target, store)}" for target in objects.references[base]]
    lines += [f"deriver: {paths.full(deriver, store)}"] if deriver else []
    lines += [f"ca: {address}"] if address else []
    return "".join(line + "\n" for line in lines).encode() + b"\n"


def write_imports(folder, imported, objects, store):
    os.mkdir(f"{folder}/objects")
    width = len(str(len(imported)))
    for at, base in enumerate(imported, 1):
        with open(f"{folder}/objects/{at:0{width}}-{base}", "xb") as file:
            file.write(body_head(base, objects, store))
            for piece in objects.archive(base):
                file.write(piece)


# ---- roots


def command(user, *words):
    return " ".join(["nixkeep", "--user", *map(shlex.quote, (user, *words))])


def profile_commands(owner, name, generations, current, store):
    """The commands that make a profile of generations, pairs of number and path, and set the current one.

    nixkeep numbers them anew from 1, and makes one generation of two neighbours with one path.
    """
    numbers, count, last = {}, 0, None
    for number, target in generations:
        if target != last:
            count, last = count + 1, target
            yield command(owner, "profile", "set", name, paths.full(target, store)) + f"  # generation {number}"
        numbers[number] = count
    chosen = max([number for number in numbers if number <= current] or numbers)
    if numbers[chosen] != count:
        yield command(owner, "profile", "switch", name, str(numbers[chosen])) + f"  # generation {chosen}"


def root_commands(rows, store):
    """The commands that set all roots: `rows` has the rows of each table that are kept."""
    for name, target in rows["permanent"]:
        yield command("root", "root", "--permanent", name, paths.full(target, store))
    for owner, name, target in rows["user_root"]:
        yield command(owner, "root", name, paths.full(target, store))
    generations = collections.defaultdict(list)
    for owner, name, number, target in rows["generation"]:
        generations[owner, name].append((number, target))
    current = {row[:2]: row[2] for row in rows["profile"]}
    for (owner, name), links in generations.items():
        yield from profile_commands(owner, name, links, current[owner, name], store)
    for owner, session, target in rows["temp_root"]:
        yield command(owner, "temp", "add", str(session), paths.full(target, store))
    if rows["runtime"]:
        lines = [f"root: {label} {paths.full(target, store)}" for label, target in rows["runtime"]]
        yield "\n".join([command("root", "runtime") + " <<'END'", *lines, "", "END"])


def kept_roots(rows, faults, kept):
    """The rows of roots that can be set again, by table; and pairs of a row and the reason why it is left out."""
    rules = collections.defaultdict(list)
    for fault in faults:
        rules[fault.table, fault.row].append(fault.rule)
    sound, left_out = {}, []
    for table in ("permanent", "user_root", "generation", "runtime", "temp_root"):
        sound[table] = []
        for row in rows.of(table):
            key = row[:FORMS[table][1]]
            why = [*rules[table, key], *([] if row[-1] in kept else ["its target is left out"])]
            if table == "generation":
                why += [rule for rule in rules["profile", row[:2]] if not rule.startswith("cur ")]
            if why:
                left_out.append((shown(table, key), why[0]))
            else:
                sound[table].append(row)
    sound["profile"] = rows.of("profile")
    return sound, left_out


# ---- the folder


@contextlib.contextmanager
def made(folder):
    """A new folder, which its owner alone may read. It is gone if what is done here fails."""
    os.mkdir(folder, 0o700)
    try:
        yield
    except BaseException:
        shutil.rmtree(folder, ignore_errors=True)
        raise


def rescue(folder: str, file: str, examined: Examined) -> Rescued:
    """Writes what is sound to a new folder, which its owner alone may read, and returns what was Rescued.

    Raises OSError if something is there, such as a folder or a link, or the folder can't be written, and Stop if the
    disk has no room for the objects. Then there is no such folder.
    """
    rows, objects, faults, store = examined.rows, examined.objects, examined.row_faults, examined.store_dir
    imported, left_out = in_order(objects, bad_objects(objects, faults, rows.partial))
    roots, left_roots = kept_roots(rows, faults, set(imported))
    with made(folder):
        disk_room.demand(sum(objects.checked[base].size for base in imported), folder)
        write_imports(folder, imported, objects, store)
        with open(f"{folder}/store.toml", "x") as out:
            out.write(f'store-dir = "{store}"\n')
        # (a machine may stop: the script has its name once it is whole)
        with open(f"{folder}/restore.new", "x") as out:
            # (no file name ends the comment that it is in)
            out.write(SCRIPT.format(file=ascii(file), count=len(imported)))
            commands = root_commands(roots, store)
            out.writelines(f"{line}\n" for line in ["", "# The roots, each set by its owner.", *commands])
        os.chmod(f"{folder}/restore.new", 0o700)
        os.rename(f"{folder}/restore.new", f"{folder}/restore")
    count = sum(len(of_table) for table, of_table in roots.items() if table != "profile")
    lost = [(shown("object", (base,)), why) for base, why in sorted(left_out.items())]
    return Rescued(len(imported), count, [*lost, *left_roots])
