"""What `try` tests of nginx and nixkeep-cache: what nginx keeps and for how long, foreign web pages, the log, restarts
without a failure, and uploads during a collection."""
import contextlib
import json
import random
import subprocess
import threading
import time
from concurrent.futures import ThreadPoolExecutor
from pathlib import Path
from typing import Any

import ban_checks
import by_nix
import entry_checks
import parts
from parts import body, check, same

# Longer than anything is kept.
MINUTE = 62
SESSION = "/temp/build/4194304"
OTHER_SITE = (403, b"denied: other-site\n")


def imported(user, path, archive):
    """An object without a content address is imported."""
    given = body(("path", path), ("nar-hash", by_nix.nar_hash(archive)), payload=archive)
    return user("POST", "/import", given)[0]


def kept_for_a_minute(site):
    """What is deleted, or made again with other contents, is known to all after a minute, whatever nginx has."""
    ann, build, rng = site.user("ann"), site.user("build"), random.Random(7)
    host, again = build.nix("kept-host"), build.nix("kept-again")
    made, other = host.closure(6, 7, "kept")[-1], parts.some_path(rng, "other")
    url, record = f"{build.url}?compression=none", f"/{made[11:43]}.narinfo"
    copied = lambda nix, *words: nix.run("nix", "copy", *words, made).returncode
    same("a closure is uploaded", copied(host, "--to", url), 0)
    same("and fetched, so nginx has its records and archives",
         copied(ann.nix("kept-desk"), "--from", ann.url), 0)
    old, new = by_nix.archive(b"old"), by_nix.archive(b"other")
    same("an object is imported", imported(build, other, old), 200)
    address = ann.archive(other)
    same("and read twice", [ann("GET", address)[1] for _ in range(2)], [old] * 2)
    name, head = file_of(build, rng)
    freed = [build("DELETE", SESSION), build("POST", "/collect")]
    check("the closure is collected", made in freed[1][1].decode(), (freed, build("GET", "/roots")))
    same("after a collection the record is gone for one who wants to upload, at once", head(record), 404)
    same("the same path is imported with other contents", imported(build, other, new), 200)
    same("a reader gets these by their record, or none", ann("GET", ann.archive(other))[1] in (old, new), True)
    forgotten(site, name, head)
    time.sleep(MINUTE)
    same("after a minute the closure is gone for readers", ann("GET", record)[0], 404)
    same("the record is that of the new contents", ann("GET", ann.archive(other)), (200, new))
    same("and the old contents are gone", ann("GET", address)[0], 404)
    for path in again.closure(6, 7, "kept"):
        assert Path(again.root + path).exists()
    same("another machine uploads the closure again", copied(again, "--to", url), 0)
    check("and it is in the store", made in build.listed(), made)


def file_of(build, rng):
    """A file is uploaded by itself. Returns its name, and how HEAD answers a target."""
    head = lambda target: int(parts.curl(*build.words, "-I", f"{build.url}{target}", "-o", "/dev/null")[0])
    archive = by_nix.archive(rng.randbytes(1000))
    name = f"/nar/{by_nix.digest(archive)}.nar"
    same("a file that wasn't sent isn't there", head(name), 404)
    same("it is sent", build("PUT", name, archive)[0], 201)
    same("then it is there", head(name), 200)
    return name, head


def compressed(site):
    """Archives are compressed for who reads that, and nginx keeps both forms apart."""
    # (one who reads no archive before: that dan may connect is kept for a minute as well, and then the store is asked)
    dan, server = site.user("dan", "green"), site.servers["green"]
    archive = by_nix.archive(contents := b"a line\n" * 50_000)
    path = dan.add("compressed", contents)
    target, zstd = dan.archive(path), ("-H", "accept-encoding: zstd", "--compressed")
    raw = lambda *words: len(dan("GET", target, None, *words)[1])
    sizes = raw("-H", "accept-encoding: gzip, zstd;q=0.1", "--raw"), raw("-H", "accept-encoding: gzip", "--raw")
    check("an archive is sent compressed to who reads that, and as it is to others",
          sizes[0] < 1000 and sizes[1] == len(archive), sizes)
    # (who may connect is kept for a minute, and a loaded machine may take longer: then it is tried again)
    for _ in range(10):
        raw(), raw(*zstd)
        server.end()
        kept = [dan("GET", target, None, *fields, "--max-time", "60") for fields in (zstd, ())]
        server.start()
        if kept == [(200, archive)] * 2:
            break
    same("nginx keeps both, while the store doesn't run", kept, [(200, archive)] * 2)


def large(site):
    """Large archives pass nginx, also above its limit for other bodies, to a Nix that demands signatures."""
    ann, build, server = site.user("ann"), site.user("build"), site.servers["red"]
    host, desk = build.nix("large-host"), ann.nix("large-desk")
    made = host.outputs(host.texts(1, "large"), [10, 300_000, 22_000_000], random.Random(9))
    ran = host.run("nix", "copy", "--to", f"{build.url}?compression=none", made[-1])
    check("nix copy uploads archives of 0.3 and 22 MB", ran.returncode == 0, ran.stderr.decode())
    same("which are blobs", [ann.archive(path).split("/")[1] for path in made], ["nar", "large", "large"])
    ran = desk.run("nix-store", "--realise", made[-1], "--option", "substituters", ann.url)
    check("a substituter has them, with signatures", ran.returncode == 0, ran.stderr.decode())
    same("as they were", [desk.archive(path) == host.archive(path) for path in made], [True] * 3)
    name, part = ann.archive(made[-1]), ann("GET", ann.archive(made[-1]), None, "-H", "range: bytes=5-14")
    same("a range of one", (part[0], part[1] == ann("GET", name)[1][5:15]), (206, True))
    same("a stranger gets none", site.user("eve")("GET", name)[0], 403)
    digits = by_nix.digest(host.archive(made[-1]))
    same("who isn't trusted sends none", ann("PUT", f"/nar/{digits}.nar", host.archive(made[-1]))[1],
         b"denied: trusted-import\n")
    words = [f"{parts.TOOLS}/nixkeep-cache", "verify", "--blobs", f"{site.folder}/lib/red/blobs"]
    words += ["--server", f"unix:{server.place}", "--config", f"{parts.HERE}/red.toml"]
    ran = subprocess.run(words, capture_output=True, text=True)
    is_whole = ran.returncode == 0 and ran.stdout.startswith("verified 2 blobs ")
    check("all blobs are whole", is_whole and ": 0 missing, 0 damaged, 0 that" in ran.stdout, ran)


def forgotten(site, name, head):
    """The file is deleted as one that has waited for too long."""
    server = site.servers["red"]
    server.end()
    for path in Path(f"{site.folder}/lib/red/waiting").glob(f"{name[5:]}*"):
        path.unlink()
    server.start()
    same("a file that waits no longer is gone, so that it is sent again", head(name), 404)


def other_sites(site):
    """Requests as a browser sends them for other sites' pages change nothing."""
    ann, own = site.user("ann"), f"https://red.localhost:{site.port}"
    path = ann.add("of-a-page", b"x")
    dropped = "DELETE", "/root/user/ann/none", None
    for fields in (["origin: https://evil.example"], ["origin: null"], [f"origin: https://green.localhost:{site.port}"],
                   ["sec-fetch-site: cross-site"], ["sec-fetch-site: same-site"],
                   [f"origin: {own}", "sec-fetch-site: same-site"], [f"origin: {own}.evil.example"]):
        words = [word for field in fields for word in ("-H", field)]
        same(f"{', '.join(fields)}: nothing is collected", ann("POST", "/collect", None, *words), OTHER_SITE)
        same("nor dropped", ann(*dropped, *words), OTHER_SITE)
    check("the object is still there", path in ann.listed(), path)
    for fields in ([f"origin: {own}", "sec-fetch-site: same-origin"], ["sec-fetch-site: none"]):
        words = [word for field in fields for word in ("-H", field)]
        same(f"{', '.join(fields)}: it is the store's own page", ann(*dropped, *words)[1], b"refused: 27 no-root\n")
    same("another page may load what it can't read",
         ann("GET", "/nix-cache-info", None, "-H", "origin: https://evil.example")[0], 200)
    words = [*ann.words, "-H", "host: elsewhere.example"]
    same("a name that is no team's gets no answer", parts.curl(*words, f"{ann.url}/paths")[0], 0)


def dear(site):
    """Questions over all of a store pass 5 a second, after 20 at once, whatever else a client says of itself."""
    carol, began = site.user("carol", certificate="carol"), time.monotonic()
    with ThreadPoolExecutor(8) as pool:
        statuses = [*pool.map(lambda at: carol("GET", "/report", None, "-u", f"name{at}:x")[0], range(60))]
    same("a certificate is who asks, and not the name of a password besides", statuses, [200] * 60)
    spent = time.monotonic() - began
    # (a little less, since nginx counts in thousandths)
    check("so 60 questions over all of a store take at least (60 - 21) / 5 seconds", spent > 7.7, spent)


def logged(site):
    """The log has who was used, and a word for each login that failed, which no client can forge."""
    file, forged, long = f"{site.folder}/log/nixkeep.log", '/x","login":"failed","status":401', "/" + '"' * 7_000

    def marked(mark):
        """The log with the lines of all requests so far. A line may be written after its reply, but one process of
        nginx writes all of them, in order."""
        site.user("ann")("GET", mark)
        parts.until("a line", lambda: mark.encode() in (log := Path(file).read_bytes()) and log.endswith(b"\n"))
        return Path(file).read_bytes()

    before = marked("/before")
    site.user("ann", password="wrong")("GET", "/nix-cache-info")
    site.user(None)("GET", "/nix-cache-info")
    site.user("ann")("GET", long)
    carol = site.user("carol", certificate="carol")
    carol("GET", "/nix-cache-info", None, "-u", "ann:ann-secret")
    site.user("ann", password="wrong")("POST", "/collect", None, "-H", "origin: https://evil.example")
    site.user("ann")("GET", forged)
    site.user("eve")("GET", f"/{'1' * 32}.narinfo")
    lines = [json.loads(line) for line in marked("/after")[len(before):].splitlines()[:-1]]
    came = [(line["status"], line["login"], line["user"]) for line in lines]
    same("the log has the user that was used, and logins that failed, and nothing of who names nobody", came,
         [(401, "failed", ""), (404, "", "ann"), (200, "", "carol"), (404, "", "ann"), (403, "", "eve")])
    same("a long target is cut", lines[1]["target"], long[:300])
    same("and the subject of a certificate", [line["subject"] for line in lines if line["subject"]], ["CN=carol,O=red"])
    same("a target is logged as it came", lines[3]["target"], forged)
    failed = [line for line in Path(file).read_text().splitlines(True) if json.loads(line)["login"] == "failed"]
    ban_checks.counted(file, len(failed))
    ban_checks.banned(site, failed[-1])


def restarted(site):
    """The store is restarted while clients read and add: no request fails, also where nobody listens for a moment."""
    ann, server, answers, stop = site.user("ann"), site.servers["red"], [], threading.Event()

    def ask(at):
        for count in range(10_000):
            if stop.is_set():
                return
            given = body(("name", f"restarted{at}"), payload=f"{count}".encode())
            answers.append(ann("POST", "/text", given)[0])
            answers.append(ann("GET", "/nix-cache-info")[0])

    with ThreadPoolExecutor(4) as pool:
        for at in range(4):
            pool.submit(ask, at)
        with contextlib.ExitStack() as at_the_end:
            at_the_end.callback(stop.set)
            for _ in range(3):
                before = len(answers)
                parts.until("ten answers", lambda: len(answers) >= before + 10)
                server.end()
                server.start()
    same(f"the store is restarted three times: each of {len(answers)} requests is done", set(answers), {200})


def collected_meanwhile(site):
    """Another user's collection between the records of an upload deletes nothing of it."""
    bob, build, rng = site.user("bob"), site.user("build"), random.Random(8)
    first, second = parts.some_path(rng, "first"), parts.some_path(rng, "second")
    there = parts.some_path(rng, "there")
    same("an object is in the store", imported(build, there, by_nix.archive(b"there")), 200)
    head = [parts.curl(*build.words, "-I", f"{build.url}/{path[11:43]}.narinfo", "-o", "/dev/null")[0]
            for path in (there, first, second)]
    same("a client asks for it, and for two that aren't there", head, [200, 404, 404])
    same("and uploads a first path", uploaded(build, first, b"first"), 200)
    freed = bob("POST", "/collect")
    check("another user collects", freed[0] == 200 and not {first, there} & {*freed[1].decode().split()}, freed)
    same("the path that refers to both is uploaded", uploaded(build, second, b"second", first[11:], there[11:]), 200)
    build("DELETE", SESSION)
    freed = bob("POST", "/collect")[1].decode().split()
    same("once the session is over all three are collected", {first, second, there} <= {*freed}, True)


def uploaded(user, path, contents, *references):
    """An object is uploaded as Nix does it: the status of its record."""
    archive = by_nix.archive(contents)
    digest = by_nix.digest(archive)
    user("PUT", f"/nar/{digest}.nar", archive)
    lines = [("StorePath", path), ("URL", f"nar/{digest}.nar"), ("Compression", "none"), ("NarSize", len(archive)),
             ("NarHash", f"sha256:{digest}"), ("References", " ".join(references))]
    return user("PUT", f"/{path[11:43]}.narinfo", "".join(f"{key}: {value}\n" for key, value in lines).encode())[0]


def all_of(site: Any) -> None:
    for test in (other_sites, entry_checks.tls, entry_checks.watched, entry_checks.subjects, entry_checks.half_asked,
                 entry_checks.slow_imports, dear, logged, compressed, large, entry_checks.forms_of_large,
                 entry_checks.slow_uploads, restarted, collected_meanwhile, kept_for_a_minute):
        test(site)
