"""Runs the program with each allocation refused in turn.

  lines     runs of the program over lines of every kind: each gives what it gives with ample memory, or `failed:
            memory` alone with status 1. Among them each fault of an archive, a derivation text and a configuration,
            and what else is refused or denied: none of them is answered as memory. And two messages on one stream
  store     requests of every kind to a server over a file, each with what the store then says: a request that is
            answered as failed has left the store as it was, in memory and in the file, and each other reply is that
            of ample memory; the allocations of a server's start are refused to the first of them alone
  bodies    connections on which no block of 16 KiB or more is given. A message whose archive wants one is read to its
            end, and answered that memory is wanting, or with what its head, its lines or a rule refuses or denies; one
            whose body isn't kept is answered as with ample memory; and so is the next one. A body that ends early is a
            bad length. Any other body that wants such a block ends the connection, without a reply
  again     the worked rows of a collection up to a limit, of an import and of an archive that is served: after each
            refusal the request is made once more, and succeeds
  openings  a command that opens files of each of the three schemas, which SQLite made: one that fails has left the rows
            as they were, or all those of the third schema. And files that are refused, or hold what a request is
            refused for

Each run has to free all that it was given, whatever was refused. With --count N, N allocations of each run are refused,
chosen by the seed. Needs cc.
"""
import functools
import itertools
from pathlib import Path

import pytest

from nixkeep_dev.model.runs import rows_in
from nixkeep_dev.testing import report
from nixkeep_dev.testing.http_messages import STATE, all_replies, message, messages, replies, state_of
from nixkeep_dev.testing.http_messages import lines as lines_of
from nixkeep_dev.testing.nar import archive, text_path
from nixkeep_dev.testing.preload import Loaded
from nixkeep_dev.testing.refusals import all_refused
from nixkeep_dev.testing.requests import imported, named, some_store
from nixkeep_dev.testing.store import copy, remove
from nixkeep_dev.testing.tables import Built, made_by, put

FAILED = b"failed: memory\n"
# How a message is answered that has failed: the head and the text.
HEAD = b"HTTP/1.1 503 Service Unavailable\r\ncontent-type: text/plain\r\ncontent-length: 15"
FAILED_REPLY = HEAD, FAILED
CONFIG = 'allowed-users = []\ntrusted-users = ["@wheel"]\n\n[groups]\nwheel = ["ann"]\n'


class Refusing(Loaded):
    """Runs the program with an allocation refused, or none."""

    def run(self, words, given=b"", refused=0, **where):
        came, (_, held) = super().run(words, given, REFUSE=refused, **where), self.counted()
        return report.fail(f"nixkeep {' '.join(words)}: {held} blocks aren't freed", refused) if held else came

    def each(self, name, fault):
        """Refuses as many allocations in turn as the last run has asked for, or some: `fault` says what is wrong with
        a run, or None."""
        for refused in self.some(self.counted()[0], name):
            report.right(f"{name}: allocation {refused} refused", fault(refused))

    def compare(self, name, words, run, wanted=None, is_kept=lambda came: True):
        """Each run gives what it gives with ample memory, where this line is wanted, or says that memory is wanting,
        and keeps what it has to. A server says so in its reply, or as it ends."""
        ample, is_server = run(0), words[-1:] == ["serve"]
        if wanted is not None and texts_of(ample, is_server) != [b"", wanted]:
            report.fail(f"{name}: {wanted!r} is wanted, and {ample} came")

        def fault(refused):
            came = run(refused)
            is_failed = came[0] in ([0, 1] if is_server else [1]) and texts_of(came, is_server) == [b"", FAILED]
            return None if (is_failed or came == ample) and is_kept(came) else f"{came}, or other rows"

        self.each(name, fault)


@pytest.fixture(scope="module")
def refusing(program, shared_folder, some):
    return Refusing(program, shared_folder, "tests/faults/refuse_memory.c", some)


def texts_of(came, is_server):
    """What a run has said: its output and errors, of a server the one reply's text and the errors."""
    _, output, errors = came
    complete, left = replies(output) if is_server else ([], output)
    return sorted([b"".join(text for _, text in complete) + left, errors])


# ---- lines

FILE, A, B = archive(b"abc"), "0" * 32 + "-a", "1" * 32 + "-b"
# Words without an input, and such that read one; `store.toml` and `bad.toml` are configurations.
COMMANDS = [(line.split(), b"") for line in (
    "--user root who", "--config store.toml --user ann --group users who", "who", "text-path .",
    "--config bad.toml --user root who", "text-path n x", "", "--help", "text-path --help", "whom", "who x", "--user",
    "--nope", "--user a --user b who", "--config bad.toml ls")]
COMMANDS += [(line.split(), given) for line, given in (
    (f"text-path n {B} {A}", b"abc"), ("--config store.toml text-path n", b"abc"), (f"source-path n {B} {A}", FILE),
    ("--config store.toml source-path n", FILE[:-1]), ("ls", FILE), ("ls", FILE + b"x"))]


@pytest.mark.parametrize("words, given", COMMANDS,
                         ids=lambda value: " ".join(value) if isinstance(value, list) else len(value))
def test_lines(refusing, words, given):
    files = {"store.toml": CONFIG, "bad.toml": 'store-dir = "/"\n'}
    placed = [refusing.put(word, files[word]) if word in files else word for word in words]
    refusing.compare(" ".join(["nixkeep", *words]), placed, functools.partial(refusing.run, placed, given))


@pytest.mark.parametrize("wanted, settings, words, given", [
    pytest.param(*case, id=f"{case[0].strip()}: {' '.join(case[2])}"[:99]) for case in all_refused()])
def test_refused_lines(refusing, wanted, settings, words, given):
    words = ["--config", refusing.put("refused.toml", settings), *words]
    name = f"{wanted.strip()}: {' '.join(words[2:])}"[:99]
    refusing.compare(name, words, functools.partial(refusing.run, words, given), wanted.encode())


def test_two_messages(refusing):
    """Two messages to a store in memory: each reply is that of ample memory or says that memory is wanting, and a run
    that ends before has written a beginning of them."""
    requests = [("ann", "GET", "/paths"), ("ann", "POST", "/text", lines_of(("name", "a"), payload=b"x"))]
    given = messages(requests)
    status, written, errors = refusing.run(["serve"], given)
    ample = all_replies(written, len(requests))
    added = f"/nix/store/{text_path('a', b'x')}\n".encode()
    if [status, errors, *(text for _, text in ample)] != [0, b"", b"", added]:
        report.fail(f"two messages: {ample}")

    def fault(refused_at):
        status, written, errors = refusing.run(["serve"], given, refused_at)
        came, left = replies(written)
        is_whole = (status, errors, left, len(came)) == (0, b"", b"", len(ample))
        is_failed = (status, errors) == (1, FAILED) and len(came) < len(ample)
        fits = all(one == other or one[1] == FAILED for one, other in zip(came, ample))
        is_begun = not left or ample[len(came)][0].startswith(left) or left.startswith(ample[len(came)][0])
        return None if (is_whole or is_failed) and fits and is_begun else f"{status, written, errors}"

    refusing.each("two messages", fault)


# ---- a store in a file


class Served:
    """Servers over copies of a file, with an allocation refused, or none; of all, or of those after the start."""

    def __init__(self, refusing):
        self.refusing, self.where, self.answered = refusing, {}, 0
        self.path, self.spare, self.config = (refusing.at(name) for name in ("store.db", "spare.db", "settings.toml"))

    def over(self, path, requests, refused=0):
        words = ["--config", self.config, "--db", path, "serve"]
        return self.refusing.run(words, messages(requests), refused, **self.where)

    def state(self, path):
        return state_of(self.over(path, STATE)[1])

    def fault(self, request, before, ample, refused):
        """What is wrong with a run over a copy of the file, or None."""
        copy(self.path, self.spare)
        status, written, errors = self.over(self.spare, [request, *STATE], refused)
        came, left = replies(written)
        if [status, errors, left, came] == [0, b"", b"", ample]:
            return None
        if (status, errors) not in ((0, b""), (1, FAILED)) or status == 0 and (left or len(came) != len(ample)):
            return f"status {status}, {len(came)} replies, {errors!r}"
        if came and came[0] not in (ample[0], FAILED_REPLY):
            return f"another reply: {came[0]}"
        self.answered += came[:1] == [FAILED_REPLY]
        # a request that has failed changes nothing; without its reply it may have been done
        states = [before, ample[1:]] if not came else [before] if came[0] == FAILED_REPLY else [ample[1:]]
        fits = [state for state in states
                if all(one == other or one == FAILED_REPLY for one, other in zip(came[1:], state))]
        if not fits:
            return f"the store is neither that before nor that after: {came}"
        if self.state(self.spare) not in fits:
            return f"the file has another store than the server described: {came}"
        return None


REQUESTS = named()


@pytest.fixture(scope="module")
def served(refusing):
    return Served(refusing)


@pytest.fixture(scope="module")
def before_each(served):
    """The file that each request finds, and what the store says then: no file, and nothing, before the first."""
    states = []
    for number, (_, settings, request) in enumerate(REQUESTS):
        served.refusing.put("settings.toml", settings)
        is_there = Path(served.path).exists()
        kept = copy(served.path, served.refusing.at(f"found-{number}.db"))
        states.append((kept, served.state(copy(kept, served.spare)) if is_there else None))
        served.over(served.path, [request])
    return states


@pytest.mark.parametrize("number", range(len(REQUESTS)), ids=lambda number: f"{number} {REQUESTS[number][0]}")
def test_store(served, before_each, number):
    (name, settings, request), (kept, before) = REQUESTS[number], before_each[number]
    served.refusing.put("settings.toml", settings)
    # (a server's start is tried with the first request)
    served.path, served.where = kept, {"REFUSE_FROM_INPUT": "1"} if number else {}
    copy(served.path, served.spare)
    ample = all_replies(served.over(served.spare, [request, *STATE])[1], 1 + len(STATE))
    # (no file yet: the tables are made, and nothing is in them)
    was = before or ample[1:]
    served.refusing.each(name, functools.partial(served.fault, request, was, ample))


def test_some_requests_to_a_store_are_answered_as_failed(served, request):
    """Those of the tests above."""
    if any(item.name.startswith("test_store") for item in request.session.items):
        assert served.answered


# ---- the request once more


def freed(size, *paths):
    """The text of a collection that deletes these paths, which have as many bytes each."""
    lost = "".join(f"/nix/store/{path}\n" for path in paths)
    return f"{lost}freed {len(paths)} paths {size * len(paths)} bytes\n".encode()


def worked():
    """Worked rows: the requests that make a store, or a store of the model; the request of which each allocation is
    refused; and the text of the reply."""
    p, x, y = "0" * 32 + "-p", "1" * 32 + "-x", "2" * 32 + "-y"
    empty, small, long = archive(b""), archive(b"mycontent\n"), archive(b"x" * 65_432)
    three = [imported(p, empty), *[imported(base, empty, ("reference", p)) for base in (x, y)]]
    collect = lambda limit: ("ann", "POST", "/collect", lines_of(("max-freed", limit)))
    yield three, collect(0), freed(112)
    yield three, collect(1), freed(112, x)
    yield [*three, collect(1)], collect(113), freed(112, p, y)
    yield three, collect(2**64 - 1), freed(112, p, x, y)
    yield cycle(p, x), collect(1), freed(112, p, x)
    source, hashed = "xv2iccirbrvklck36f1g7vldn5v58vck-myfile", "1qwy7y49hyqd7kdpkyjfclz5fkfqalqapzc4v18lbibkx1yzdzib"
    address = lines_of(("path", source), ("nar-hash", f"sha256:{hashed}"), ("ca", f"fixed:r:sha256:{hashed}"))
    yield [], ("ann", "POST", "/import", address + small), f"/nix/store/{source}\n".encode()
    yield [imported(p, long)], ("ann", "GET", f"/nar/{p}"), long


def cycle(one, other):
    """A store in which two objects refer to each other, as no requests make one."""
    made = Built()
    made.put(one, archive(b""))
    made.put(other, archive(b""), [one])
    made.world.objects[one] = made.world.objects[one]._replace(references=frozenset([other]))
    return made


@pytest.mark.parametrize("made, sent, text", [
    pytest.param(*case, id=f"{at} {' '.join(case[1][:3])}") for at, case in enumerate(worked())])
def test_again(refusing, made, sent, text):
    served = Served(refusing)
    served.where = {"REFUSE_FROM_INPUT": "1"}
    refusing.put("settings.toml", "")
    remove(served.path)
    if isinstance(made, Built):
        put(served.path, made.rows(), made_by(3))
    else:
        served.over(served.path, made)
    once_more(served, sent, text)


def once_more(served, request, text):
    """Refuses each allocation of a request over a copy of the file, and makes the request once more."""
    name = f"{' '.join(request[:3])}, once more"
    over = lambda given, refused=0: served.over(copy(served.path, served.spare), given, refused)
    ample, twice = [all_replies(over([*made, *STATE])[1], len(made) + len(STATE))
                    for made in ([request], [request] * 2)]
    report.same(name, ample[0][1], text)
    over([request])
    served.refusing.each(name, lambda refused: fault_of_both(
        served, request, over([request, request, *STATE], refused), ample, twice))


def fault_of_both(served, request, ran, ample, twice):
    """What is wrong with a run that was asked twice, or None: a request that failed is done the second time."""
    status, written, errors = ran
    came, left = replies(written)
    if (status, errors) == (1, FAILED) and came in ([], [ample[0]]):
        # the connection has ended, and the request is made on the next one; without a reply it may have been done
        ran = served.over(served.spare, [request, *STATE])
        wanted = [twice[1:]] if came else [ample, twice[1:]]
        return None if all_replies(ran[1], 1 + len(STATE)) in wanted else f"{came}, and then {ran}"
    if [status, errors, left, len(came)] != [0, b"", b"", len(twice)]:
        return f"status {status}, {len(came)} replies, {errors!r}"
    wanted = [[FAILED_REPLY, *ample], [ample[0], FAILED_REPLY, *ample[1:]], twice]
    return None if came in wanted else f"other replies: {came}"


# ---- bodies that find no memory

FAR = b"x" * 100_000
DENIED = b"denied: connect\n", b"denied: trusted-import\n"
MALFORMED = b"refused: 41 bad-body-head\n"
AT = "0" * 32 + "-a"
LINES = ("path", AT), ("nar-hash", "sha256:" + "0" * 52)
NEXT = "ann", "GET", "/paths"


def answered():
    """Messages whose archives want more memory than is given, or whose bodies aren't kept, and the text of each
    reply."""
    yield ("ann", "POST", "/source", lines_of(("name", "a"), payload=FAR)), FAILED
    yield ("ann", "POST", "/source", lines_of(("nome", "a"), payload=FAR)), MALFORMED
    yield ("ann", "POST", "/import", lines_of(*LINES, payload=FAR)), FAILED
    yield ("bob", "POST", "/import", lines_of(*LINES, payload=FAR)), DENIED[1]
    yield ("bob", "POST", "/import", lines_of(*LINES, ("ca", "text:sha256:" + "0" * 52), payload=FAR)), FAILED
    yield ("ann", "POST", "/import", lines_of(("path", AT), payload=FAR)), MALFORMED
    yield ("bob", "POST", "/import", lines_of(("path", AT), payload=FAR)), MALFORMED
    yield ("ann", "GET", "/paths", FAR), MALFORMED
    yield ("bob", "POST", "/rollback/ann/p", FAR), MALFORMED
    yield ("bob", "GET", "/info/x", FAR), b"refused: 14 bad-store-path\n"
    yield ("mallory", "POST", "/text", lines_of(("name", "a"), payload=FAR)), DENIED[0]
    yield ("ann", "POST", "/nowhere", FAR), b"refused: 39 no-route\n"


def ending():
    """Messages with other bodies that want more memory than is given, from callers whom the rules allow the request
    or not."""
    yield "ann", "POST", "/text", lines_of(("name", "a"), payload=FAR)
    for target in "/text", "/source", "/import", "/profile/ann/p", "/profile/bob/p", "/runtime", "/collect", "/delete":
        for user in "ann", "bob":
            yield user, "POST", target, FAR


SMALL = "ann", "POST", "/text", lines_of(("name", "a"), payload=b"x")
ADDED = f"/nix/store/{text_path('a', b'x')}\n".encode()


@pytest.fixture
def over(refusing):
    """What a server answers that is given no large block: its status, the texts, what is left, and its errors."""
    config = refusing.put("bodies.toml", 'allowed-users = ["bob"]\ntrusted-users = ["ann"]\n')

    def run(requests, after=b""):
        where = {"REFUSE_BLOCKS": 16_384, "REFUSE_FROM_INPUT": 1}
        status, written, errors = refusing.run(["--config", config, "serve"], messages(requests) + after, **where)
        came, left = replies(written)
        return status, [text for _, text in came], left, errors

    return run


def test_bodies_that_are_answered(over):
    requests, wanted = [SMALL], [ADDED]
    for one, text in answered():
        requests += [one, NEXT]
        wanted += [text, ADDED]
    status, came, *rest = over(requests)
    for one, text, other in itertools.zip_longest(requests, came, wanted):
        report.same(f"{' '.join(one[:3])}, a body without memory", text, other)
    report.same("bodies without memory, and how the server ends", (status, *rest), (0, b"", b""))


@pytest.mark.parametrize("target, body", [("/source", lines_of(("name", "a"), payload=FAR)), ("/rollback/ann/p", FAR)],
                         ids=["source", "rollback"])
def test_bodies_that_end_early(over, target, body):
    # (the head says one byte more than comes)
    short = message("ann", "POST", target, body).replace(b": %d\r" % len(body), b": %d\r" % (len(body) + 1))
    wanted = 0, [ADDED, b"refused: 37 bad-length\n"], b"", b""
    report.same(f"POST {target} without memory, which ends early", over([SMALL], short), wanted)


def test_bodies_that_end_the_connection(over):
    for one in ending():
        name = f"{' '.join(one[:3])}, a body without memory"
        report.same(name, over([SMALL, one, NEXT]), (1, [ADDED], b"", FAILED))


# ---- files that are opened


def open_each(refusing, name, whole, words, allowed=None):
    """Refuses allocations of a command after it has opened a copy of a file: it leaves these rows, or those that the
    file has. Returns what it gives, and the rows that it leaves, with ample memory."""
    spare = refusing.at("opened.db")

    def run(refused):
        copy(whole, spare)
        return refusing.run(["--db", spare, *words], b"", refused, REFUSE_FROM_FILE=spare)

    allowed = allowed or [rows_in(whole)]
    refusing.compare(name, words, run, is_kept=lambda came: came[1] != FAILED and rows_in(spare) in allowed)
    return run(0), rows_in(spare)


SPOILED = "UPDATE object SET hash = zeroblob(32);"
FULL = "UPDATE generation SET num = num + 9997; UPDATE profile SET cur = 9999;"


@pytest.mark.parametrize("wanted, words, change", [
    ("21 bad-schema", ["roots"], SPOILED), ("22 other-store-dir", ["--config", "other.toml", "roots"], ""),
    ("32 generation-limit", ["profile", "set", "tools", "PATH"], FULL)], ids=["schema", "directory", "generations"])
def test_openings_that_are_refused(refusing, wanted, words, change):
    """A request over a file, which is refused: each run says so, or that memory is wanting, and leaves the rows."""
    built = some_store(3)
    places = {"other.toml": refusing.put("other.toml", 'store-dir = "/other/store"\n'),
              "PATH": next(iter(built.world.objects))}
    remove(whole := refusing.at("refused.db"))
    put(whole, built.rows(), made_by(3), change)
    words = ["--user", "ann", *(places.get(word, word) for word in words)]
    came, _ = open_each(refusing, f"a file and {wanted}", whole, words)
    if came != (3, b"", f"refused: {wanted}\n".encode()):
        report.fail(f"refused: {wanted} is wanted, and {came} came")


@pytest.mark.parametrize("schema", [1, 2, 3])
def test_openings(refusing, schema):
    """A command that opens a file of each schema: one that fails has left the rows, or those of the third schema."""
    built = some_store(schema)
    put(whole := refusing.at(f"schema{schema}.db"), built.rows(schema), made_by(schema))
    allowed, words = [built.rows(version) for version in (schema, 3)], ["--user", "root", "roots"]
    (status, printed, _), rows = open_each(refusing, f"a file of schema {schema}", whole, words, allowed)
    if status or printed.count(b"\n") != len(built.world.roots()) or rows != allowed[1]:
        report.fail(f"a file of schema {schema}: status {status}, {printed!r}, or other rows")
