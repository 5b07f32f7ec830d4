"""What the pages of the overview share: their policy, their style, and how they write sizes and times."""
import datetime
import functools

import jinja2
import markupsafe

# The page loads nothing, whatever a name in the store may look like.
POLICY = (
    "default-src 'none'; style-src 'unsafe-inline'; img-src data:; "
    "form-action 'self'; base-uri 'none'; frame-ancestors 'none'"
)

FIELDS = {"content-security-policy": POLICY, "x-content-type-options": "nosniff"}

STYLE = """:root { --text: #1b1b1f; --back: #fff; --quiet: #54545c; --line: #d5d5dc;
  --link: #0b4fbf; --bar: #4a7fd6; --alone: #b35c00; }
@media (prefers-color-scheme: dark) {
  :root { --text: #e9e9ee; --back: #131316; --quiet: #b5b5bf; --line: #3a3a42;
    --link: #9cc1ff; --bar: #6f9fe8; --alone: #f0a850; }
}
* { box-sizing: border-box; }
body { margin: 0 auto; max-width: 70rem; padding: 0 1rem 3rem; font: 1rem/1.5 system-ui, sans-serif;
  color: var(--text); background: var(--back); }
h1 { font-size: 1.6rem; margin: 1.2rem 0 0; } h2 { font-size: 1.2rem; margin: 2.2rem 0 .5rem; }
p { margin: .5rem 0; } .quiet { color: var(--quiet); }
a { color: var(--link); }
a:focus-visible, input:focus-visible, button:focus-visible, .wide:focus-visible
  { outline: 3px solid var(--link); outline-offset: 2px; }
.skip { position: absolute; left: -99rem; } .skip:focus { left: 1rem; background: var(--back); padding: .5rem; }
dl.sums { display: grid; grid-template-columns: repeat(auto-fit, minmax(9rem, 1fr)); gap: .8rem; margin: 1rem 0; }
dl.sums div { border: 1px solid var(--line); border-radius: .5rem; padding: .6rem .8rem; }
dl.sums dt { color: var(--quiet); } dl.sums dd { margin: 0; } dl.sums .size { font-size: 1.3rem; font-weight: 600; }
.wide { overflow-x: auto; } table { border-collapse: collapse; width: 100%; }
th, td { text-align: left; padding: .3rem .8rem .3rem 0; border-bottom: 1px solid var(--line);
  vertical-align: top; font-weight: inherit; }
thead th { font-weight: 600; }
td.n, th.n { text-align: right; white-space: nowrap; font-variant-numeric: tabular-nums; }
.path { overflow-wrap: anywhere; min-width: 11rem; }
.path small { color: var(--quiet); font-size: .8rem; display: block; }
.bar { height: .35rem; background: var(--bar); min-width: 1px; }
.bar.alone { background: var(--alone); margin-top: 2px; }
form { display: flex; flex-wrap: wrap; gap: .5rem; align-items: end; } label { flex-basis: 100%; }
input { flex: 1 1 14rem; } input, button { font: inherit; padding: .4rem .6rem; color: inherit; background: var(--back);
  border: 1px solid var(--quiet); border-radius: .3rem; }
.drawing svg { max-width: 100%; height: auto; } .drawing text { fill: var(--text); }
.drawing path, .drawing polygon { stroke: var(--quiet); } .drawing .edge polygon { fill: var(--quiet); }
.drawing .all { fill: var(--bar); } .drawing .bad { fill: var(--alone); }
.notice { border-left: .3rem solid var(--alone); padding: .2rem .8rem; }
ol { padding-left: 1.5rem; }
input::placeholder { color: var(--quiet); opacity: 1; }
@media (max-width: 40rem) {
  .full, .wide .path small { display: none; } table { font-size: .9rem; }
  th, td { padding-right: .4rem; } .wide .path { min-width: 5rem; }
}
"""

# The start of each page, up to its heading, and how it writes a number of bytes.
HEAD = """<!DOCTYPE html>
<html lang="en">
<head>
<meta charset="utf-8">
<meta name="viewport" content="width=device-width, initial-scale=1">
<meta name="color-scheme" content="light dark">
<title>{{ title }} - nixkeep</title>
<link rel="icon" href="data:,">
<style>
{{ style }}</style>
</head>
<body>
<a class="skip" href="#main">To the figures</a>
{% macro size(bytes) %}<abbr title="{{ '{:,}'.format(bytes) }} bytes">{{ bytes|human }}</abbr>{% endmacro %}
{% macro many(count, word) %}{{ '{:,}'.format(count) }} {{ word }}{{ '' if count == 1 else 's' }}{% endmacro %}
"""


def human(count: float) -> str:
    """A number of bytes in the unit that leaves at most four digits."""
    for unit in ("B", "KiB", "MiB", "GiB"):
        if count < 1024:
            return f"{count} {unit}" if unit == "B" else f"{count:.1f} {unit}"
        count /= 1024
    return f"{count:.1f} TiB"


@functools.cache
def compiled(template):
    """A template after the head. To compile it takes longer than all else of a page, so that is done once."""
    made = jinja2.Environment(autoescape=True, trim_blocks=True)
    made.filters["human"] = human
    return made.from_string(HEAD + template)


def rendered(template: str, **values: object) -> str:
    """A page: the head, and what the template makes of the values."""
    time = datetime.datetime.now(datetime.timezone.utc).strftime("%-d %B %Y, %H:%M UTC")
    return compiled(template).render(style=markupsafe.Markup(STYLE), time=time, **values)
