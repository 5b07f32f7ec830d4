"""Tests nixkeep-overview: its figures next to a plain computation, its page as nixkeep-cache serves it, what 10,000
objects take, compared with plain work of this machine; and the page in headless Chromium: console, scripts, contrast,
widths, names for a screen reader, the keyboard.
"""
import asyncio
import collections
import html
import json
import os
import random
import resource
import subprocess
import tempfile
import time
from pathlib import Path

import pytest

import parts
from nixkeep_dev.testing import nar, report, stores
from nixkeep_tools import overview, overview_source, store_file
from parts import body
from tests.tools import servers
from tests.tools.remote import file_of

pytestmark = pytest.mark.needs("python3-jinja2")
COMMAND = f"{parts.ROOT}/tools/nixkeep-overview"
# What figures of 10,000 objects may take, as a multiple of a few million steps of Python on this machine, now.
STEPS, TIMES = 5_000_000, 4
HOSTILE = '</th><script>document.title="run"</script>&"\'{{1+1}}'


def reached(kept, start):
    """The objects that one reaches, with the length of the shortest chain to each."""
    lengths, left = {start: 0}, collections.deque([start])
    while left:
        at = left.popleft()
        for to in kept[at]:
            if to not in lengths:
                lengths[to] = lengths[at] + 1
                left.append(to)
    return lengths


@pytest.mark.parametrize("seed", range(20))
def test_a_random_graph_next_to_a_walk_from_each_root(seed):
    """With cycles by derivers and outputs."""
    rng = random.Random(seed)
    bases = [f"{nar.base32(rng.randbytes(20))}-n{at}" for at in range(30)]
    pick = lambda most: rng.sample(bases, rng.randrange(most))
    objects = {base: store_file.Object(rng.randrange(1000), None, rng.choice([None, *bases]), None, pick(3),
                                       dict(enumerate(pick(2)))) for base in bases}
    roots = [store_file.Root(rng.choice(["user", "profile"]), rng.choice(bases), f"r{at}", rng.choice("ab"), "n", at)
             for at in range(8)]
    keeps = rng.random() < 0.5, rng.random() < 0.5
    store = store_file.Store(3, "/nix/store", objects, roots, {})
    figures, kept = overview.Overview(store, *keeps), store_file.edges(store, *keeps)
    reach = [reached(kept, root.target) for root in roots]
    size = lambda some: sum(objects[base].size for base in some)
    wanted = {}
    for key in {(root.owner, root.kind) for root in roots}:
        of = set().union(*(reach[at] for at, root in enumerate(roots) if (root.owner, root.kind) == key))
        others = set().union(*(reach[at] for at, root in enumerate(roots) if (root.owner, root.kind) != key))
        wanted[key] = size(of), size(of - others)
    assert {(line.owner, line.kind): tuple(line.usage) for line in figures.lines()} == wanted
    for root, used in figures.roots():
        at = roots.index(root)
        assert tuple(used) == (size(reach[at]), size(set(reach[at]).difference(*reach[:at], *reach[at + 1 :])))
    assert {base for base, _ in figures.dead()} == set(bases) - set().union(*reach)
    for base in bases:
        why = figures.why(base)
        first = next((at for at in range(8) if base in reach[at]), None)
        assert why.root == (None if first is None else roots[first])
        if why.root:
            chain = why.steps[0].base, why.steps[-1].base, len(why.steps) - 1
            assert chain == (why.root.target, base, reach[first][base])


def most():
    """The seconds of the processor that figures may take: this machine may be slow, or busy."""
    began = time.process_time()
    sum(number * number % 7 for number in range(STEPS))
    return TIMES * (time.process_time() - began)


@pytest.fixture(scope="module")
def large(shared_folder):
    """The file of a store with 10,000 objects, and the path of its first."""
    file = f"{shared_folder}/large.db"
    return file, stores.put_store(file, 10_000, random.Random(1), 60, HOSTILE)[0]


def ran(*words):
    return ran_in((), *words)


def ran_in(limit, *words):
    """Runs nixkeep-overview, which writes no file above more KiB than the limit."""
    command = [COMMAND, *map(str, words)]
    return subprocess.run(servers.limited(command, *limit) if limit else command, capture_output=True, text=True)


def test_10_000_objects_in_bounded_work_of_the_processor(large, folder):
    before = resource.getrusage(resource.RUSAGE_CHILDREN)
    came = ran("--db", large[0], "--output", f"{folder}/large.html")
    after = resource.getrusage(resource.RUSAGE_CHILDREN)
    took = after.ru_utime + after.ru_stime - before.ru_utime - before.ru_stime
    assert (came.returncode, came.stderr) == (0, "")
    assert took < most(), f"less than {TIMES * STEPS:,} steps of Python"
    text = Path(f"{folder}/large.html").read_text()
    assert "<script" not in text and "http:" not in text and "https:" not in text, "it loads nothing, and has no script"
    assert text.count("9 (current)") == 3, "the current generation is marked"
    assert "its owner: nixkeep profile" in " ".join(text.split()), "by which users of a file delete a generation"


def test_words_about_a_file(large):
    file, path = large
    came = ran("--db", file, "--why", path)
    assert came.returncode == 0 and "first root" in came.stdout, came.stderr
    came = ran("--db", file, "--name", "that")
    assert "Who keeps what in that</h1>" in came.stdout, came.stderr


@pytest.mark.parametrize("words, line", [(["--db", "/none.db"], "No such file"), (["--db", __file__], "database"),
                                         (["--why", "x", "--db", None], "14 bad-store-path")])
def test_what_cannot_be_read_has_one_line(words, line, large):
    came = ran(*[word or large[0] for word in words])
    assert came.returncode == 1 and line in came.stderr and came.stderr.count("\n") == 1


def test_a_page_on_a_full_disk(folder):
    """The page that was there stays whole, with its mode, also below a link; else there is none."""
    stores.put_store(file := f"{folder}/store.db", 3, random.Random(1), 1, HOSTILE)
    page, link = Path(folder, "page.html"), Path(folder, "link.html")
    link.symlink_to(page)
    before = sorted(os.listdir(folder))
    written = lambda *limit: ran_in(limit, "--db", file, "--output", link)
    for there in ({*before}, {*before, page.name}):
        came = written(2)
        assert came.returncode == 1 and "File too large" in came.stderr and came.stderr.count("\n") == 1
        assert {*os.listdir(folder)} == there
        assert written().returncode == 0 and link.is_symlink() and "</html>" in page.read_text()
        page.write_text("before")
        page.chmod(0o604)
    assert written(2).returncode and page.read_text() == "before"
    assert not written().returncode and page.stat().st_mode & 0o777 == 0o604
    came = subprocess.run([COMMAND, "--db", file, "--output", "/dev/stdout"], capture_output=True, text=True)
    assert came.stdout == page.read_text(), "and what is no file is written as it is"


def test_8_000_roots_in_bounded_work_of_the_processor(folder):
    """The figures are those of a walk from each of some of them."""
    from nixkeep_tools import overview_page

    stores.put_store(f"{folder}/roots.db", 10_000, random.Random(3), 2_667)
    store = overview_source.of_file(f"{folder}/roots.db")
    began = time.process_time()
    figures = overview.Overview(store)
    overview_page.page(figures, "/overview")
    took = time.process_time() - began
    assert len(store.roots) > 8_000 and took < most(), f"less than {TIMES * STEPS:,} steps of Python"
    kept = store_file.edges(store)
    size = lambda root: sum(store.objects[base].size for base in reached(kept, root.target))
    walked = {root.label: size(root) for root in store.roots[::400]}
    assert {root.label: used.all for root, used in figures.roots() if root.label in walked} == walked


def test_a_long_chain():
    """One of more steps than are drawn is listed alone."""
    from nixkeep_tools import overview_page

    bases = [f"{at:032}-step" for at in range(overview.DRAWN + 1)]
    objects = {base: store_file.Object(1, None, None, None, [target for target in [to] if target], {})
               for base, to in zip(bases, [*bases[1:], None])}
    root = store_file.Root("user", bases[0], "a label", "ann", "name", None)
    made = overview.Overview(store_file.Store(None, "/nix/store", objects, [root], {}))
    long, short = (overview_page.page(made, why=base) for base in (bases[-1], bases[-2]))
    assert (long.count("<li "), "<svg" in long, "of more than 100 steps" in long) == (101, False, True)
    assert "of more than" not in short, "one of 100 steps may be drawn"


# ---- as it is served


class Site:
    """nixkeep-cache before the server of a small store, and the paths of that."""

    def __init__(self, server, cache, paths):
        self.server, self.cache, self.paths, self.url = server, cache, paths, f"http://127.0.0.1:{cache.place}"

    def get(self, user, target="/overview", *words, **more):
        return parts.curl("-H", f"store-user: {user}", *words, self.url + target, **more)

    def post(self, target, given):
        return self.get("ann", target, "--data-binary", "@-", given=given)

    def newer(self):
        """Ann's page, made after this call: figures are kept for five seconds."""
        time.sleep(5.5)
        return self.get("ann")[1]


@pytest.fixture(scope="module")
def site(program, shared_folder):
    report.skip_without("curl", "python3-aiohttp")
    config, file = f"{shared_folder}/red.toml", f"{shared_folder}/store.db"
    Path(config).write_text('allowed-users = ["ann"]\ntrusted-users = ["build"]\n')
    made = stores.put_store(file, 40, random.Random(2), 3, HOSTILE)
    with parts.server(program, shared_folder, config, file) as server, \
            parts.cache(shared_folder, server.place, None, "--proxied", "--config", config) as cache:
        yield Site(server, cache, made)


def test_who_sees_what(site):
    status, text = site.get("build")
    assert status == 200 and b"Who keeps what in red</h1>" in text, "a trusted user, with the name by the configuration"
    assert b"nixkeep-remote profile delete" in text, "by which users of a server delete a generation"
    assert html.escape(HOSTILE, quote=False)[:30].encode() in text, "with all labels, as text"
    assert b"own listing" not in text, "and the server's own list of live paths agrees"
    status, text = site.get("ann")
    assert status == 200 and b"{censored}" in text and b"script" not in text.replace(b"script-src", b""), (
        "an allowed user doesn't see runtime labels")
    assert site.post("/temp/ann/7", body(("path", f"/nix/store/{site.paths[0]}"))) == (200, b"done\n")
    text = site.newer()
    assert b"<td>runtime or session, hidden</td>" in text and b"<td>runtime</td>" not in text, "ann's own session"
    assert site.get("eve") == (403, b"denied: connect\n")


def test_why_a_path_is_kept(site):
    status, text = site.get("ann", f"/overview?why=/nix/store/{site.paths[0]}")
    assert status == 200 and b"first root" in text
    status, text = site.get("ann", "/overview?why=%3Cb%3E")
    assert status == 200 and b"There is no path &lt;b&gt;" in text


# ---- in a browser

# The lowest contrast between a text and its background, and the text.
CONTRAST = """(() => {
  const light = c => { const [r, g, b] = c.map(x => (x /= 255) <= .03928 ? x / 12.92 : ((x + .055) / 1.055) ** 2.4);
                       return .2126 * r + .7152 * g + .0722 * b; };
  const parse = c => c.match(/[0-9.]+/g).map(Number);
  const behind = e => { for (; e; e = e.parentElement) { const c = parse(getComputedStyle(e).backgroundColor);
                        if (c.length < 4 || c[3] > 0) return c.slice(0, 3); } return [255, 255, 255]; };
  let worst = [99, ''];
  const walk = document.createTreeWalker(document.body, NodeFilter.SHOW_TEXT);
  while (walk.nextNode()) { const e = walk.currentNode.parentElement;
    if (!walk.currentNode.data.trim() || e.tagName == 'STYLE' || e.tagName == 'title') continue;
    const s = getComputedStyle(e), color = parse(e.namespaceURI.includes('svg') ? s.fill : s.color);
    const [a, b] = [light(color.slice(0, 3)), light(behind(e))];
    const ratio = (Math.max(a, b) + .05) / (Math.min(a, b) + .05);
    if (ratio < worst[0]) worst = [ratio, walk.currentNode.data.trim().slice(0, 40)]; }
  return worst; })()"""
NAMES = """[...document.querySelectorAll('input, button, [role=region], [role=img], table')].filter(e =>
  !(e.getAttribute('aria-label') || document.getElementById(e.getAttribute('aria-labelledby') || '-')
    || (e.tagName == 'INPUT' && e.labels.length) || (e.tagName == 'BUTTON' && e.textContent.trim()))).length"""


class Browser:
    """A page of headless Chromium, driven over its own protocol."""

    def __init__(self, socket):
        self.socket, self.last, self.events = socket, 0, []

    async def ask(self, method, **params):
        self.last += 1
        await self.socket.send_json({"id": self.last, "method": method, "params": params})
        while True:
            came = json.loads((await self.socket.receive()).data)
            if came.get("id") == self.last:
                return came.get("result", came)
            self.events.append(came)

    async def open(self, url):
        await self.ask("Page.navigate", url=url)
        while not any(event.get("method") == "Page.loadEventFired" for event in self.events):
            self.events.append(json.loads((await self.socket.receive()).data))
        self.events = [event for event in self.events if event.get("method") != "Page.loadEventFired"]

    async def value(self, expression):
        return (await self.ask("Runtime.evaluate", expression=expression, returnByValue=True))["result"].get("value")

    def said(self):
        kinds = "Runtime.consoleAPICalled", "Runtime.exceptionThrown", "Log.entryAdded"
        return [event for event in self.events if event["method"] in kinds]


async def looked_at(browser, url, width, scheme):
    await browser.ask("Emulation.setDeviceMetricsOverride", width=width, height=900, deviceScaleFactor=1,
                      mobile=width < 600)
    await browser.ask("Emulation.setEmulatedMedia", features=[{"name": "prefers-color-scheme", "value": scheme}])
    await browser.open(url)
    contrast, text = await browser.value(CONTRAST)
    assert contrast >= 4.5, text
    over = await browser.value("document.documentElement.scrollWidth - document.documentElement.clientWidth")
    assert over == 0, "nothing is wider than the window"
    assert await browser.value(NAMES) == 0, "each control, region, table and drawing has a name"
    assert await browser.value("document.title") != "run", "no script has run"
    assert browser.said() == [], "no message on the console"


async def keyboard(browser, url):
    """Tab goes to the link over the head, to that to the last day, to the form, and through the tables."""
    await browser.open(url)
    places = []
    for _ in range(5):
        for kind in ("keyDown", "keyUp"):
            await browser.ask("Input.dispatchKeyEvent", type=kind, key="Tab", code="Tab", windowsVirtualKeyCode=9)
        places.append(await browser.value("(it => it.className || it.id || it.tagName)(document.activeElement)"))
    assert places == ["skip", "A", "why", "BUTTON", "wide"]
    assert browser.said() == []


# A page of another site that changes the store of whoever opens it, as far as the browser and the store let it.
ATTACK = """<!DOCTYPE html><title>attack</title><iframe name="here"></iframe>
<form id="form" method="post" target="here" enctype="text/plain" action="{url}"><input name="name: a" value="b"></form>
<script>(async () => {{ let seen = [];
  for (const method of ['POST', 'PUT', 'DELETE'])
    await fetch('{url}', {{method, mode: method == 'POST' ? 'no-cors' : 'cors', body: 'path: x'}})
      .then(it => seen.push(it.status), it => seen.push('refused'));
  document.getElementById('form').submit();
  document.querySelector('iframe').onload = () => document.title = 'done ' + seen.join(' '); }})()</script>"""


async def attacked(browser, site):
    """Pages of another host and of another port of the same host ask for a collection: nothing is deleted."""
    before, page = site.get("build", "/paths"), ATTACK.format(url=f"{site.url}/collect").encode()
    with servers.answering(lambda *_: (200, "text/html", page)) as url:
        for host in ("localhost", "127.0.0.1"):
            browser.events.clear()
            await browser.open(url.replace("127.0.0.1", host) + "/")
            for _ in range(1200):
                title = await browser.value("document.title")
                if title.startswith("done"):
                    break
                await asyncio.sleep(0.1)
            events = [event for event in browser.events if event.get("method") == "Network.responseReceived"]
            seen = [event["params"]["response"] for event in events]
            statuses = [response["status"] for response in seen if response["url"].startswith(site.url)]
            assert title.startswith("done") and len(statuses) >= 2 and set(statuses) <= {403, 405}, (
                f"a page of {host} asks for a collection by a form and by a script, and is denied", title, statuses)
    assert site.get("build", "/paths") == before and before[1].split(), "nothing is deleted"
    browser.events.clear()
    await browser.open(f"{site.url}/overview")
    own = "fetch('/collect', {method: 'POST'}).then(it => it.status)"
    reply = await browser.ask("Runtime.evaluate", expression=own, awaitPromise=True, returnByValue=True)
    # (the page itself has no script and may connect nowhere, by its policy)
    assert "exceptionDetails" in reply, "a script within the page itself has no leave to ask"
    browser.events.clear()


@pytest.fixture(scope="module")
def browse():
    """Runs a function on the page of Chromium, as a trusted user of the store."""
    report.skip_without("curl", "chromium", "dot", "python3-aiohttp")
    import aiohttp

    async def run(work, *words):
        async with aiohttp.ClientSession() as session:
            async with session.get(f"http://127.0.0.1:{port}/json/list") as reply:
                target = next(tab for tab in await reply.json() if tab["type"] == "page")
            async with session.ws_connect(target["webSocketDebuggerUrl"], max_msg_size=0) as socket:
                browser = Browser(socket)
                for domain in ("Page", "Runtime", "Log", "Network"):
                    await browser.ask(f"{domain}.enable")
                await browser.ask("Network.setExtraHTTPHeaders", headers={"store-user": "build"})
                await work(browser, *words)

    port = parts.free_port()
    words = "chromium --headless=new --no-sandbox --disable-gpu --no-first-run".split()
    # (some of its processes may still write there for a moment after it has ended)
    with tempfile.TemporaryDirectory(ignore_cleanup_errors=True) as folder:
        words += [f"--remote-debugging-port={port}", f"--user-data-dir={folder}/chromium", "about:blank"]
        with parts.Part("chromium", words, port, f"{folder}/chromium.log"):
            yield lambda *given: asyncio.run(run(*given))


@pytest.mark.parametrize("scheme", ["light", "dark"])
@pytest.mark.parametrize("width", [390, 1280])
@pytest.mark.parametrize("page", ["figures", "why", "day"])
def test_a_page_in_a_browser(page, width, scheme, site, browse):
    of_path = lambda path: f"/overview?why={path}"
    targets = {"figures": "/overview", "day": "/overview/day",
               "why": of_path(max(site.paths, key=lambda path: site.get("build", of_path(path))[1].count(b"<li")))}
    browse(looked_at, site.url + targets[page], width, scheme)


def test_the_keyboard_in_a_browser(site, browse):
    browse(keyboard, f"{site.url}/overview")


def test_a_page_of_another_site_in_a_browser(site, browse):
    browse(attacked, site)


# ---- what changes the store, after all else


def test_a_collection(site):
    dead = [path for path in site.paths if b"No root" in site.get("ann", f"/overview?why={path}")[1]]
    assert site.get("ann", "/report")[1].splitlines()[2].split()[1] == str(len(dead)).encode()
    site.post("/collect", b"")
    assert b"There is none." in site.newer(), "after a collection, once the page isn't fresh any more"
    added = site.post("/text", body(("name", "new"), payload=b"x"))[1].decode().strip()
    assert added[11:43].encode() in site.newer(), "and a new one is seen"
    at = "--store", f"127.0.0.1:{site.server.place}", "--user"
    came = ran(*at, "ann")
    assert came.returncode == 0 and added[11:43] in came.stdout, "the command asks the server too"
    assert ran(*at, "eve").stderr == "nixkeep-overview: denied: connect\n"


def test_a_drawing_that_fails(site, folder, monkeypatch):
    """Where `dot` fails, a page has the chain without the drawing."""
    file_of(folder, "dot", "#!/bin/sh\nexit 1\n", 0o755)
    site.cache.end()
    monkeypatch.setenv("PATH", f"{folder}:{os.environ['PATH']}")
    site.cache.start()
    texts = [site.get("build", f"/overview?why={path}")[1] for path in site.paths]
    kept = [text for text in texts if b"first root" in text]
    assert kept and all(b"There is no drawing" in text and b"<svg" not in text for text in kept)
