"""The page of the report: a template for jinja2. It asks the network for nothing."""

PAGE = """<!DOCTYPE html>
<html lang="en">
<head>
<meta charset="utf-8">
<meta name="viewport" content="width=device-width, initial-scale=1">
<title>{{ title }}</title>
<link rel="icon" href="data:,">
<style>
:root { --ink: #1d2733; --soft: #5b6875; --line: #dde3e9; --accent: #1f5fa8; --paper: #fff;
  --wash: #f5f7f9; --bad: #b3261e; }
* { box-sizing: border-box; }
body { margin: 0; font: 15px/1.5 system-ui, "DejaVu Sans", sans-serif; color: var(--ink); background: var(--wash); }
header { background: #16283c; color: #fff; padding: 22px 32px 18px; }
header h1 { margin: 0; font-size: 24px; font-weight: 600; }
header p { margin: 4px 0 0; color: #b9c7d6; }
nav { position: sticky; top: 0; z-index: 2; background: var(--paper); border-bottom: 1px solid var(--line);
  padding: 8px 32px; }
nav a { margin-right: 22px; color: var(--accent); text-decoration: none; font-weight: 500; }
main { max-width: 1180px; margin: 0 auto; padding: 20px 32px 60px; }
section { background: var(--paper); border: 1px solid var(--line); border-radius: 8px; padding: 16px 22px 20px;
  margin: 0 0 22px; scroll-margin-top: 56px; }
h2 { margin: 0 0 12px; font-size: 18px; }
h3 { margin: 18px 0 6px; font-size: 15px; }
.tiles { display: flex; flex-wrap: wrap; gap: 14px; margin-bottom: 22px; }
.tile { flex: 1 1 150px; background: var(--paper); border: 1px solid var(--line); border-radius: 8px;
  padding: 12px 18px; }
.tile b { display: block; font-size: 19px; font-weight: 600; }
.tile span { color: var(--soft); font-size: 13px; }
img { max-width: 100%; display: block; margin: 0 auto; }
table { border-collapse: collapse; width: 100%; font-size: 13px; }
th, td { padding: 4px 9px; text-align: right; border-bottom: 1px solid var(--line); white-space: nowrap;
  font-variant-numeric: tabular-nums; }
th { background: var(--wash); font-weight: 600; }
.text td, .text th, td.text, th.text { text-align: left; white-space: normal; overflow-wrap: anywhere; }
.text th { width: 190px; background: none; color: var(--soft); font-weight: 500; vertical-align: top; }
.name { min-width: 150px; }
.scroll { max-height: 520px; overflow: auto; border: 1px solid var(--line); border-radius: 6px; }
.scroll thead th { position: sticky; top: 0; z-index: 1; }
#candidates thead th { cursor: pointer; user-select: none; }
#candidates thead th::after { content: "\\2195"; color: #b4bec8; margin-left: 4px; font-weight: 400; }
#candidates thead th[aria-sort=ascending]::after { content: "\\25B2"; color: var(--accent); }
#candidates thead th[aria-sort=descending]::after { content: "\\25BC"; color: var(--accent); }
#candidates tbody tr:hover { background: #eef4fb; }
#candidates a { color: var(--accent); }
td.flag { color: var(--bad); }
.filters { display: flex; flex-wrap: wrap; gap: 10px 20px; align-items: center; margin-bottom: 10px; font-size: 14px; }
.filters input[type=number], .filters input[type=search] { width: 96px; padding: 4px 7px; border: 1px solid #bcc7d1;
  border-radius: 5px; font: inherit; }
.filters input[type=search] { width: 170px; }
.note { color: var(--soft); font-size: 13px; }
pre { background: var(--wash); border: 1px solid var(--line); border-radius: 6px; padding: 10px 14px;
  overflow: auto; font: 12px/1.45 ui-monospace, "DejaVu Sans Mono", monospace; margin: 0; }
code { font: 12px ui-monospace, "DejaVu Sans Mono", monospace; overflow-wrap: anywhere; }
article { border-top: 1px solid var(--line); padding: 14px 0 8px; scroll-margin-top: 56px; }
article:first-of-type { border-top: 0; }
article h3 { margin: 0 0 4px; }
details summary { cursor: pointer; color: var(--accent); margin: 6px 0; }
@media print { nav, .filters { display: none; } .scroll { max-height: none; overflow: visible; }
  section { break-inside: avoid; } }
</style>
</head>
<body>
<header><h1>{{ title }}</h1><p>{{ subtitle }}</p></header>
<nav><a href="#overview">Overview</a><a href="#list">Candidates</a><a href="#pictures">Pictures</a>
{%- if folds %}<a href="#folds">Folds</a>{% endif %}<a href="#observation">Observation</a><a href="#searched">Search</a>
<a href="#commands">Commands</a></nav>
<main>
<div class="tiles">
{%- for value, name in tiles %}
<div class="tile"><b>{{ value }}</b><span>{{ name }}</span></div>
{%- endfor %}
</div>
<section id="overview"><h2>Overview</h2>
<img alt="S/N against DM, candidates of each DM, and DM against time" src="{{ overview }}">
</section>
<section id="list"><h2>Candidates</h2>
<div class="filters">
<label>S/N from <input type="number" id="least-snr" min="0" step="0.5"></label>
<label>DM from <input type="number" id="least-dm" min="0" step="any"></label>
<label>to <input type="number" id="most-dm" min="0" step="any"></label>
<label><input type="checkbox" id="no-flags"> without flags</label>
<label>with <input type="search" id="some-text" placeholder="text"></label>
<span class="note"><span id="shown">{{ rows | length }}</span> of {{ rows | length }} shown</span>
</div>
<div class="scroll"><table id="candidates">
<thead><tr>
{%- for column in columns %}<th class="{{ column.kind }}" title="{{ column.meaning }}">{{ column.title }}</th>
{%- endfor %}
</tr></thead>
<tbody>
{%- for row in rows %}
<tr data-snr="{{ row.snr }}" data-dm="{{ row.dm }}" data-flag="{{ row.flag }}">
{%- for cell in row.cells %}<td class="{{ cell.kind }}" data-value="{{ cell.value }}">
{%- if cell.link %}<a href="{{ cell.link }}">{{ cell.shown }}</a>{% else %}{{ cell.shown }}{% endif %}</td>
{%- endfor %}</tr>
{%- endfor %}
</tbody></table></div>
<p class="note">{% if rows | length < count %}The first {{ rows | length }} of {{ count }} candidates; all of them are
in candidates.csv. {% endif %}Click on a head to sort. Times are those of the middle of the box: at the top of the band
in seconds after the first spectrum, and at an infinite frequency as MJD (UTC at the telescope). Flags:
{% for name, meaning in flags %}<b>{{ name }}</b> {{ meaning }}{{ "; " if not loop.last else "." }}{% endfor %}</p>
</section>
<section id="pictures"><h2>Pictures of the strongest</h2>
{%- if not pictures %}<p class="note">There is no candidate.</p>{% endif %}
{%- for one in pictures %}
<article id="candidate-{{ one.number }}"><h3>{{ one.number }}</h3>
{%- if one.source %}<img alt="candidate {{ one.number }}" loading="lazy" src="{{ one.source }}">
{%- else %}<p class="note">{{ one.why }}</p>{% endif %}</article>
{%- endfor %}
<p class="note">Blue: the S/N that boxes of this width have at each DM. Orange: what a pulse of this width must have
(Cordes and McLaughlin 2003). Interference is as strong over many DMs, or strongest at DM 0. A pulse makes a bow tie in
DM against time.</p>
</section>
{%- if folds %}
<section id="folds"><h2>Folds</h2>
{%- for one in folds %}
<article><h3>{{ one.title }}</h3>
{%- if one.source %}<img alt="{{ one.title }}" loading="lazy" src="{{ one.source }}">
{%- else %}<p class="note">{{ one.why }}</p>{% endif %}</article>
{%- endfor %}
</section>
{%- endif %}
<section id="observation"><h2>Observation</h2>
<table class="text">
{%- for name, value in observation %}<tr><th>{{ name }}</th><td>{{ value }}</td></tr>{% endfor %}
</table>
<details><summary>Header of the searched file</summary><pre>{{ header }}</pre></details>
</section>
<section id="searched"><h2>Search</h2>
<div class="scroll"><table>
<thead><tr><th class="text">search</th><th>averaged</th><th>zero DM</th><th>DM from</th><th>to</th><th>delays</th>
<th>widths to</th><th>mean</th><th>sd</th><th>threshold</th><th>spectra</th><th>lines</th></tr></thead><tbody>
{%- for one in searches %}<tr><td class="text">{{ one.name }}</td>
{%- for value in one.cells %}<td>{{ value }}</td>{% endfor %}</tr>{% endfor %}
</tbody></table></div>
{%- for line in raised %}<p class="note">{{ line }}</p>{% endfor %}
{%- if plan %}<h3>Plan</h3><pre>{{ plan }}</pre>{% endif %}
</section>
<section id="commands"><h2>Commands</h2>
<p><code>psr_hunt {{ arguments }}</code></p>
<details{{ " open" if commands | length < 30 else "" }}><summary>{{ commands | length }} commands</summary>
<div class="scroll"><table>
<thead><tr><th class="text name">name</th><th>seconds</th><th>status</th><th class="text">command</th></tr></thead>
<tbody>
{%- for one in commands %}<tr><td class="text">{{ one.name }}</td>
<td>{{ "%.2f" | format(one.seconds) }}</td><td>{{ one.status }}</td>
<td class="text"><code>{{ one.line }}</code></td></tr>{% endfor %}
</tbody></table></div></details>
<h3>Programs</h3>
<div class="scroll"><table>
<thead><tr><th class="text">program</th><th class="text">commit</th><th class="text">sha256</th>
<th class="text">path</th></tr></thead><tbody>
{%- for one in programs %}<tr><td class="text">{{ one.name }}</td>
<td class="text"><code>{{ one.commit or "not said" }}</code></td>
<td class="text"><code>{{ one.sha256 }}</code></td><td class="text"><code>{{ one.path }}</code></td></tr>{% endfor %}
</tbody></table></div>
<p class="note">Written {{ written }} UTC. What a search finds is proved; grouping, flags and pictures are not.</p>
</section>
</main>
<script>
"use strict";
(function () {
  const table = document.getElementById("candidates"), body = table.tBodies[0];
  const rows = Array.from(body.rows), heads = Array.from(table.tHead.rows[0].cells);
  const field = name => document.getElementById(name);
  function value(row, column) {
    const text = row.cells[column].dataset.value, number = Number(text);
    return text !== "" && !Number.isNaN(number) ? number : text;
  }
  function compare(one, other) {
    if (typeof one === typeof other) return one < other ? -1 : one > other ? 1 : 0;
    return typeof one === "number" ? -1 : 1;
  }
  function sort(column) {
    const up = heads[column].getAttribute("aria-sort") === "descending";
    heads.forEach(head => head.removeAttribute("aria-sort"));
    heads[column].setAttribute("aria-sort", up ? "ascending" : "descending");
    rows.sort((one, other) => (up ? 1 : -1) * compare(value(one, column), value(other, column)));
    body.append(...rows);
  }
  function bound(name, other) { return field(name).value === "" ? other : Number(field(name).value); }
  function filter() {
    const snr = bound("least-snr", -Infinity), low = bound("least-dm", -Infinity), high = bound("most-dm", Infinity);
    const text = field("some-text").value.toLowerCase();
    let shown = 0;
    for (const row of rows) {
      const dm = Number(row.dataset.dm);
      const is_shown = Number(row.dataset.snr) >= snr && dm >= low && dm <= high &&
        !(field("no-flags").checked && row.dataset.flag !== "") && row.textContent.toLowerCase().includes(text);
      row.hidden = !is_shown;
      shown += is_shown;
    }
    field("shown").textContent = shown;
  }
  heads.forEach((head, column) => head.addEventListener("click", () => sort(column)));
  for (const name of ["least-snr", "least-dm", "most-dm", "no-flags", "some-text"])
    field(name).addEventListener("input", filter);
})();
</script>
</body>
</html>
"""
