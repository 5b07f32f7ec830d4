"""Why figures miss their limits: a remark for each, by a pattern of its names."""
import collections
import re
import textwrap
from collections.abc import Iterator

WIDTH = 118
# A pattern of the benchmark, the section and the figure, joined by ": ", and the remark on those that miss a limit.
Remark = collections.namedtuple("Remark", "pattern about text")
REMARKS = [
    Remark(r"stores: `list` on 100 objects .*: time", "`list` of 100 objects of 1 MiB, its time",
           """`sqlite` tests a file when it opens it, and copies each row for that. This and SHA-256, which is scalar
           code in `sha2`, take nearly nine tenths."""),
    Remark(r"stores: `list` on 100 objects .*: memory", "`list` of 100 objects of 1 MiB, its memory",
           """The opening of `sqlite` alone takes as much: it copies all rows of a table into one list, and nixkeep has
           it keep all pages of a file of up to 255 MiB."""),
    Remark(r"growth: .*: (?!GET|POST).*|nix: the exponent of .* by a command: .*", "growths",
           """The opening of `sqlite` reads pages again in a file of more than 255 MiB, since it has a place for 2,000
           of them alone."""),
    Remark(r"stores: `list` on .*: (time|100,000 .*)|nix: .* by a command: .*", "actions by a command",
           """A command tests all of the file first. Nix trusts its database. Of 100 instructions, the opening of
           `sqlite` takes 56 and SHA-256 24. A server does this once."""),
    Remark(r"(requests|over_http): .* 16 MiB.* in a file: (time|next to one SHA-256 of it by the same crate)",
           "adds of 16 MiB to a file",
           """In memory they take 1.6 times it. A file has each byte written to its log, read, and written again. Of 16
           copies of each byte `sqlite` makes 15, and no call of it takes a value without one."""),
    Remark(r"over_http: GET .* 16 MiB: next to a file of those bytes", "an archive of 16 MiB, next to nginx",
           """Each byte is copied six times, five of them by `sqlite`. nginx has the kernel send the file, and copies
           nothing. Without nixkeep's own copy it would still be 2.5 times."""),
    Remark(r"requests: 100 archives of 1 MiB .*: time", "archives of 1 MiB that a server sends",
           """C SQLite only reads the rows. A server that reads them so, and sends them, takes 0.8 of nixkeep's
           time."""),
    Remark(r"counts: memory of .*", "memory for objects with a deriver or an address",
           """Links turned round take 46 bytes for an object, 63 for a list of what refers to it, and 63 for one of
           what it has made. Without them all limits are met."""),
    Remark(r"nix: .*by nixkeep-remote(?: over a server)?: .*", "actions by `nixkeep-remote`",
           """More than half of it is the start of python3, and a third the client's modules, without `http.client`,
           `socket`, `ssl` and `re`. To start curl would come in addition."""),
    Remark(r"nix: .* over https: .*", "a query by `nixkeep-remote` over https",
           """Loading `ssl` takes longer than all of curl's query. What `ssl` wraps is private to Python."""),
    Remark(r"readers: .*: .*, all in nginx's cache: requests", "records and archives from nginx's cache",
           """nginx asks its cache as well whether the reader may connect, and reads the head of a reply that it
           keeps."""),
    Remark(r"readers: .*: .*, all in nginx's cache: 99th percentile", "one reply in a hundred from nginx's cache",
           """Half of them take a millisecond, and nginx and the clients take all processors, so whatever else runs is
           seen, with nginx's own files as well."""),
    Remark(r"(readers|over_http): (?!.* in nginx's cache).*: 99th percentile",
           "one request in a hundred, next to half of them",
           """Of 64 clients of `nixkeep-cache` alone it waits 1.4 times as long, of nginx and a server 1.3 times. Why it
           is more with both isn't known."""),
    Remark(r"questions: .*POST /delete, of it and of these", "a deletion of a path with ten referrers",
           """It deletes eleven objects, and syncs the log. Its denial takes half as long."""),
    Remark(r"nix: `cat-nar` of 16 MiB: time", "`cat-nar`, next to a copy of the file by `cat`",
           """A command tests the file, and hashes the archive before it prints it. `cat` copies what the kernel has
           in memory."""),
    Remark(r"libraries: .*in pieces of 100: what comes", "an archive in pieces of 100 bytes",
           """There is a call for each 100 bytes."""),
]


def name_of(bench, figure):
    return f"{bench}: {figure['section']}: {figure['what']}"


def remark_of(name):
    """The remark on a figure; None where there is none."""
    return next((remark for remark in REMARKS if re.fullmatch(remark.pattern, name)), None)


def missed(measured):
    """The names of the figures that miss their limit."""
    return [name_of(bench, figure) for bench, of in measured.items() for figure in of["figures"]
            if figure.get("is_met") is False]


def item(text):
    """An item of a list, in lines of the page's width."""
    return textwrap.fill(" ".join(text.split()), WIDTH, initial_indent="- ", subsequent_indent="  ",
                         break_long_words=False, break_on_hyphens=False)


def lines(measured: dict) -> Iterator[str]:
    """The items of the page: each remark with its number of missed limits, then that of missed figures without a
    remark."""
    names = missed(measured)
    counted = collections.Counter(map(remark_of, names))
    count_of = lambda count: "1 figure" if count == 1 else f"{count} figures"
    for remark in REMARKS:
        if counted[remark]:
            yield item(f"**{remark.about}** ({count_of(counted[remark])}). {remark.text}")
    if counted[None]:
        benches = sorted({name.partition(": ")[0] for name in names if remark_of(name) is None})
        yield item(f"**others** ({count_of(counted[None])}, which `bin/bench --print {' '.join(benches)}` shows). "
                   "The reason isn't known.")
