"""The page of an overview: HTML with its style and its drawing inside, and no script."""
import markupsafe

from . import overview
from .overview_style import rendered

TEMPLATE = """{% macro path(base) %}
{% if link %}<a href="{{ link }}?why={{ base|urlencode }}">{{ base[33:] }}</a>{% else %}{{ base[33:] }}{% endif -%}
  <small>{{ base[:32] }}</small>{% endmacro %}
{% macro more(shown, all) %}
{% if all > shown %}<p class="quiet">And {{ '{:,}'.format(all - shown) }} more.</p>{% endif %}{% endmacro %}
<header>
<h1>{% if why %}Why is {{ why.base[33:] }} kept?{% else %}Who keeps what
  {%- if name %} in {{ name }}{% endif %}{% endif %}</h1>
<p class="quiet">{% if why and name %}The store {{ name }}, {% endif %}{{ figures.store.store_dir }}, {{ time }}
{%- if why and link %}. <a href="{{ link }}">All of the store</a>{% endif %}
{%- if link %}. <a href="{{ link }}/day">The last day</a>{% endif %}</p>
</header>
<main id="main">
{% if missing %}<p class="notice" role="alert">There is no path {{ missing }} in this store.</p>{% endif %}
{% if why %}
<p class="path">{{ figures.store.store_dir }}/{{ why.base }}, {{ size(figures.store.objects[why.base].size) }}.</p>
{% if why.root %}
<p>Its first root is <strong>{{ why.root.label }}</strong>. The shortest chain from there:</p>
<ol>{% for step in why.steps %}<li class="path">{{ words[step.by] }} {{ path(step.base) }}</li>{% endfor %}</ol>
{% if drawing %}<figure class="drawing" role="img"
  aria-label="The chain above as a drawing, from the root to the path">{{ drawing }}</figure>
{% elif why.steps|length > drawn %}<p class="quiet">There is no drawing of more than {{ drawn }} steps.</p>
{% else %}<p class="quiet">There is no drawing: the Debian package graphviz isn't installed, or it failed.</p>
{% endif %}
{% else %}<p>No root reaches it. The next collection deletes it.</p>{% endif %}
{% else %}
{% if figures.differs %}<p class="notice"
 role="alert">The server's own listing of live paths differs by {{ many(figures.differs, 'path') }}: the store changed
  meanwhile, or its settings keep-outputs and keep-derivations are others.</p>{% endif %}
<dl class="sums">{% for word, (count, bytes) in sums %}<div><dt>{{ word }}</dt><dd class="size">{{ size(bytes) }}</dd>
  <dd>{{ many(count, 'path') }}</dd></div>{% endfor %}</dl>
<p>A collection would free {{ size(sums[1][1][1]) }}: {{ many(sums[1][1][0], 'dead path') }}.</p>
{% if link %}<form action="{{ link }}"><label for="why">Why is this path kept?</label>
<input id="why" name="why" required autocomplete="off" placeholder="{{ figures.store.store_dir }}/..">
<button>Show</button></form>{% endif %}

<h2 id="owners">By owner and kind</h2>
{% if lines %}<p class="quiet">In all: what these roots reach. Alone: what nothing else reaches, so what would be free
  without them.</p>
<div class="wide" tabindex="0" role="region" aria-labelledby="owners"><table aria-labelledby="owners">
<thead><tr><th scope="col">Owner</th><th scope="col">Kind</th><th scope="col" class="n">Roots</th>
  <th scope="col" class="n">In all</th>
  <th scope="col" class="n">Alone</th><th scope="col" class="full" style="width: 30%">Share</th></tr></thead>
<tbody>{% for line in lines[:most] %}<tr><th scope="row">{{ line.owner or '-' }}</th>
  <td>{{ kinds.get(line.kind, line.kind) }}</td>
  <td class="n">{{ '{:,}'.format(line.count) }}</td><td class="n">{{ size(line.usage.all) }}</td>
  <td class="n">{{ size(line.usage.alone) }}</td>
  <td class="full"><div class="bar" style="width: {{ share(line.usage.all) }}%"></div>
  <div class="bar alone" style="width: {{ share(line.usage.alone) }}%"></div></td></tr>{% endfor %}</tbody>
</table></div>{{ more(most, lines|length) }}{% else %}<p>There is no root.</p>{% endif %}

<h2 id="profiles">Profiles</h2>
{% if profiles %}<p class="quiet">A generation is deleted by its owner: {{ program }} profile delete NAME N.
  Alone: what that would free at the next collection.</p>
<div class="wide" tabindex="0" role="region" aria-labelledby="profiles"><table aria-labelledby="profiles">
<thead><tr><th scope="col">Generation</th><th scope="col">Path</th><th scope="col" class="n">In all</th>
  <th scope="col" class="n">Alone</th></tr></thead>
<tbody>{% for owner, name, root, used, is_current in profiles[:most] %}<tr>
  <th scope="row" class="path">{{ owner }}/{{ name }} {{ root.number }}{% if is_current %} (current){% endif %}</th>
  <td class="path">{{ path(root.target) }}</td><td class="n">{{ size(used.all) }}</td>
  <td class="n">{{ size(used.alone) }}</td></tr>
{% endfor %}</tbody></table></div>{{ more(most, profiles|length) }}{% else %}<p>There is no profile.</p>{% endif %}

<h2 id="roots">Roots</h2>
{% if roots %}<p class="quiet">Those that keep most first.</p>
<div class="wide" tabindex="0" role="region" aria-labelledby="roots"><table aria-labelledby="roots">
<thead><tr><th scope="col">Root</th><th scope="col">Path</th><th scope="col" class="n">In all</th>
  <th scope="col" class="n">Alone</th></tr></thead>
<tbody>{% for root, used in roots[:most] %}<tr><th scope="row" class="path">{{ root.label }}</th>
  <td class="path">{{ path(root.target) }}</td>
  <td class="n">{{ size(used.all) }}</td><td class="n">{{ size(used.alone) }}</td></tr>{% endfor %}</tbody>
</table></div>{{ more(most, roots|length) }}{% else %}<p>There is no root.</p>{% endif %}

<h2 id="dead">Largest dead paths</h2>
{% if dead %}<p class="quiet">No root reaches them; the next collection deletes them.</p>
<div class="wide" tabindex="0" role="region" aria-labelledby="dead"><table aria-labelledby="dead">
<thead><tr><th scope="col">Path</th><th scope="col" class="n">Size</th></tr></thead>
<tbody>{% for base, bytes in dead[:most_dead] %}<tr><th scope="row" class="path">{{ path(base) }}</th>
  <td class="n">{{ size(bytes) }}</td></tr>
{% endfor %}</tbody></table></div>{{ more(most_dead, dead|length) }}{% else %}<p>There is none.</p>{% endif %}
{% endif %}
</main>
</body>
</html>
"""


WORDS = {
    "root": "the target of the root",
    "reference": "its reference",
    "output": "its output",
    "deriver": "its deriver",
}
# What the page calls a kind of root, where that isn't its name.
KINDS = {"hidden": "runtime or session, hidden"}


def page(figures: overview.Overview, name: str | None = None, link: str | None = None,
         why: str | None = None) -> str:
    """The page of an Overview. `name` is that of the store, or None; `link` is where the page is served, or None for
    one by itself; `why` a path to explain."""
    sums = [("live", figures.total(bool)), ("dead", figures.total(lambda bits: not bits)),
            ("in all", figures.total(lambda _: True))]
    reason = figures.why(why) if why else None
    drawing = overview.drawing(reason) if reason and reason.root and len(reason.steps) <= overview.DRAWN else None
    roots = figures.roots()
    share = lambda size: f"{100 * size / (sums[2][1][1] or 1):.1f}"
    title = f"Why {reason.base[33:]} is kept" if reason else "Who keeps what"
    return rendered(
        TEMPLATE,
        title=f"{title} in {name}" if name else title,
        figures=figures,
        name=name,
        link=link,
        share=share,
        kinds=KINDS,
        program="nixkeep-remote" if figures.is_served else "nixkeep",
        words=WORDS,
        why=reason,
        missing=None if reason else why,
        drawing=drawing and markupsafe.Markup(drawing),
        sums=sums,
        lines=figures.lines(),
        roots=roots,
        profiles=[(*key, *line) for key, lines in figures.profiles(roots) for line in lines],
        dead=figures.dead(),
        most=overview.MOST,
        drawn=overview.DRAWN,
        most_dead=overview.DEAD,
    )
