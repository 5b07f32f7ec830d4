"""The page of the figures of the last day: HTML with its style and its drawing inside, and no script."""
import datetime

from .cache_day import Day
from .overview_style import rendered

TEMPLATE = """<header>
<h1>The last day</h1>
<p class="quiet">{{ store }}, {{ time }}. <a href="{{ link }}">Who keeps what</a></p>
</header>
<main id="main">
<dl class="sums">{% for word, value in tiles %}<div><dt>{{ word }}</dt><dd class="size">{{ value }}</dd></div>
{% endfor %}</dl>
{% for line in notices %}<p class="notice" role="alert">{{ line }}</p>{% endfor %}

<h2 id="hours">By half hours</h2>
<figure class="drawing" role="img" aria-labelledby="hours">
<svg viewBox="0 0 {{ 20 * spans|length }} 132" preserveAspectRatio="none" style="width: 100%; height: 9rem">
{% macro column(kind, at, high) %}<rect class="{{ kind }}" x="{{ 20 * at + 2 }}" y="{{ (130 - high)|round(1) }}"
  width="16" height="{{ high }}" />
{% endmacro %}
{% for span in spans %}{{ column("all", loop.index0, span.high) }}{{ column("bad", loop.index0, span.bad) }}{% endfor %}
</svg></figure>
<p class="quiet">Requests, and those that failed (status 500 and above). The highest column has
  {{ '{:,}'.format(highest) }}. The last one is the present half hour.</p>
<div class="wide" tabindex="0" role="region" aria-labelledby="hours"><table aria-labelledby="hours">
<thead><tr><th scope="col">From</th>{{ heads() }}<th scope="col" class="n full">Slowest</th></tr></thead>
<tbody>{% for span in spans|reverse if span.sums.requests %}<tr><th scope="row">{{ span.time }}</th>
  {{ cells(span.sums) }}
  <td class="n full">{{ seconds(span.slowest) }}</td></tr>{% endfor %}</tbody></table></div>

{% for word, name, lines in tables %}<h2 id="{{ name }}">{{ word }}</h2>
<div class="wide" tabindex="0" role="region" aria-labelledby="{{ name }}"><table aria-labelledby="{{ name }}">
<thead><tr><th scope="col">{{ name }}</th>{{ heads() }}<th scope="col" class="n full">Mean</th></tr></thead>
<tbody>{% for key, sums in lines[:most] %}<tr><th scope="row" class="path">{{ key }}</th>{{ cells(sums) }}
  <td class="n full">{{ seconds(sums.seconds / sums.requests) }}</td></tr>{% endfor %}</tbody></table></div>
{% if lines|length > most %}<p class="quiet">And {{ lines|length - most }} more.</p>{% endif %}
{% endfor %}
</main>
</body>
</html>
"""
MACROS = """{% macro heads() %}<th scope="col" class="n">Requests</th><th scope="col" class="n">Changes</th>
  <th scope="col" class="n">Failed</th><th scope="col" class="n full">Received</th>
  <th scope="col" class="n">Sent</th>{% endmacro %}
{% macro cells(sums) %}<td class="n">{{ '{:,}'.format(sums.requests) }}</td>
  <td class="n">{{ '{:,}'.format(sums.changes) }}</td><td class="n">{{ '{:,}'.format(sums.failures) }}</td>
  <td class="n full">{{ size(sums.received) }}</td><td class="n">{{ size(sums.sent) }}</td>{% endmacro %}
"""
HIGH, MOST = 120, 50

def seconds(count):
    """A time in the unit that fits."""
    return f"{1000 * count:.0f} ms" if count < 1 else f"{count:.1f} s" if count < 120 else f"{count / 3600:.1f} h"

def column(part, highest):
    """A part of the day with the heights of its columns."""
    high = lambda count: round(HIGH * count / highest, 1)
    time = datetime.datetime.fromtimestamp(part["since"], datetime.timezone.utc).strftime("%H:%M UTC")
    return part | {"time": time, "high": high(part["sums"]["requests"]), "bad": high(part["sums"]["failures"])}

def page(day: Day, store: str, link: str, tiles: list[tuple[str, str]], notices: list[str]) -> str:
    """The page. `tiles` are further pairs of a word and a value, `notices` lines of what needs somebody."""
    sums, spans = day.sums(), day.spans()
    highest = max(span["sums"]["requests"] for span in spans)
    lookups = sums["found"] + sums["missing"]
    count = "{:,}".format
    return rendered(
        MACROS + TEMPLATE,
        title="The last day",
        store=store,
        link=link,
        seconds=seconds,
        highest=highest,
        spans=[column(span, highest or 1) for span in spans],
        tiles=[
            ("requests", count(sums["requests"])),
            ("changes", count(sums["changes"])),
            ("failed", count(sums["failures"])),
            ("mean time", seconds(sums["seconds"] / (sums["requests"] or 1))),
            ("slowest", seconds(sums["slowest"])),
            ("records found", f"{100 * sums['found'] / lookups:.0f} %" if lookups else "-"),
            *tiles,
        ],
        notices=notices,
        tables=[("By route", "Route", day.together("routes")), ("By user", "User", day.together("users"))],
        most=MOST,
    )

