"""Times questions to a server about paths of a store of 100,000 objects, over one connection to `nixkeep serve`.

  referrers  of a path with ten referrers: which roots keep it, a deletion that one of them denies, and one that is done
  whole      what is live, what is dead and the report, ten times in a row without a change between them
  one        a path to which all objects refer, next to what is live: its walk reads as much as marking does

What a request takes here has HTTP in it. Of five rounds the least time is shown. Needs SQLite 3.37 or later. With
--quick, there are 10,000 objects.
"""
from nixkeep_dev.bench.figures import ROUNDS, limit, main, program, rounds, timed, title, versus
from nixkeep_dev.bench.serving import served
from nixkeep_dev.bench.sqlite import base, filled, opened
from nixkeep_dev.testing.http_messages import lines

# The most seconds of a question about a path with ten referrers, and of its deletion.
MOST = 0.002
# Each eleventh object has ten referrers, with which it is a group. There are as many groups with a root as KEPT says.
GROUP, KEPT = 11, 500
DENIED = 403


def store(run, path, objects, target, roots):
    """A store where each object refers to the one whose number `target` gives, unless that is itself."""
    filled(run, path, objects, 200, 0, roots)
    with opened(path) as conn:
        conn.execute("BEGIN")
        pairs = [(base(number), base(target(number))) for number in range(objects) if number != target(number)]
        conn.executemany("INSERT INTO refs (base, target) VALUES (?1, ?2)", pairs)
        conn.execute("COMMIT")
        conn.execute("PRAGMA wal_checkpoint(TRUNCATE)")
    return path


def grouped(run, path, objects):
    """Groups of one object and its ten referrers, some of them with a root."""
    roots = range(1, min(objects, 2 * GROUP * KEPT), 2 * GROUP)
    return store(run, path, objects, lambda at: at - at % GROUP, roots)


def why(client):
    """Rounds of the question which roots keep the first object."""
    return rounds(client.get, f"/roots-of/{base(0)}")


def denied(client):
    """Rounds of its deletion, which a root denies."""
    return rounds(client.ask, "POST", "/delete", lines(("path", base(0))), DENIED)


def referrers(run, words, folder):
    of_ten = grouped(run, f"{folder}/referrers.db", words.objects)
    title(f"a path with ten referrers, of {words.objects:,} objects")
    with served(run, of_ten) as server:
        limit("GET /roots-of/{path}", why(server.client), MOST)
        limit("POST /delete, which is denied", denied(server.client), MOST)
        # (each group has eleven objects, which are deleted together, and of these every other one has no root)
        bodies = [lines(("path", base((2 * at + 1) * GROUP))) for at in range(ROUNDS)]
        done = [timed(server.client.ask, "POST", "/delete", body) for body in bodies]
        limit("POST /delete, of it and of these", done, MOST)


def whole(run, words, folder):
    title(f"each of ten questions in a row about all of {words.objects:,} objects with 3 references")
    roots = range(words.objects // 2, words.objects, words.objects // (2 * KEPT))
    with served(run, filled(run, f"{folder}/whole.db", words.objects, 200, 3, roots, False)) as server:
        for target in ("/live", "/dead", "/report"):
            ten = rounds(lambda: [server.client.get(target) for _ in range(10)])
            limit(f"GET {target}", [seconds / 10 for seconds in ten], None)


def one(run, words, folder):
    """Nothing that a walk from it reads would be left out by marking, so it may take as long."""
    title(f"a path to which all of {words.objects:,} objects refer")
    with served(run, store(run, f"{folder}/one.db", words.objects, lambda at: 0, [1])) as server:
        marking = rounds(server.client.get, "/live")
        versus("GET /roots-of/{path}", marking, why(server.client), 1, "GET /live")
        versus("POST /delete, which is denied", marking, denied(server.client), 1, "GET /live")


def begin(words):
    words.objects = 10_000 if words.quick else 100_000
    return program(words)


if __name__ == "__main__":
    main(__doc__, [referrers, whole, one], begin)
