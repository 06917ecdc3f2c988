"""A trace as one page that a browser steps through, with no file and no network access besides."""

from __future__ import annotations

from html import escape

from plsdesk.pictures.layout import Places, places_of
from plsdesk.pictures.scene import scene_of
from plsdesk.pictures.svg import svg_picture
from plsdesk.running import Moment
from plsdesk.tables import HEADINGS, rows_of

_PAGE = """<!DOCTYPE html>
<html lang="en">
<head>
<meta charset="utf-8">
<title>{title}</title>
<style>
body {{ font-family: Helvetica, Arial, sans-serif; margin: 1.5em; color: #222; max-width: 75em; }}
h1 {{ font-size: 1.3em; }}
button {{ font-size: 1em; padding: 0.3em 1em; margin-right: 0.5em; }}
.step {{ display: none; }}
.step.now {{ display: block; }}
.step svg {{ max-width: 100%; height: auto; border: 1px solid #ddd; margin-top: 0.8em; }}
table {{ border-collapse: collapse; margin-top: 1em; font-size: 0.9em; }}
td, th {{ border-bottom: 1px solid #ddd; padding: 0.3em 0.8em; text-align: left; vertical-align: top; }}
tr.now {{ background: #fdf3c8; }}
tbody tr {{ cursor: pointer; }}
</style>
</head>
<body>
<h1>{title}</h1>
<p><button id="back">Back</button><button id="on">On</button> <b id="what"></b></p>
{steps}
<table>
<thead><tr>{headings}</tr></thead>
<tbody>
{rows}
</tbody>
</table>
<p>A click on a row, or the keys ← and →, go to a step. In the table a node is named where its verdict changed.</p>
<script>
const steps = document.querySelectorAll(".step"), rows = document.querySelectorAll("tbody tr");
let now = 0;
function show(step) {{
  now = Math.max(0, Math.min(steps.length - 1, step));
  steps.forEach((one, place) => one.classList.toggle("now", place === now));
  rows.forEach((one, place) => one.classList.toggle("now", place === now));
  document.getElementById("what").textContent = steps[now].dataset.name;
  history.replaceState(null, "", "#" + now);
}}
document.getElementById("back").onclick = () => show(now - 1);
document.getElementById("on").onclick = () => show(now + 1);
rows.forEach((one, place) => one.onclick = () => show(place));
document.onkeydown = event => {{
  if (event.key === "ArrowLeft") show(now - 1);
  if (event.key === "ArrowRight") show(now + 1);
}};
show(Number(location.hash.slice(1)) || 0);
</script>
</body>
</html>
"""


def page(moments: list[Moment], title: str) -> str:
    """The HTML text of a page with a picture for each moment, and the table of the trace."""
    places: Places | None = None
    steps: list[str] = []
    for place, moment in enumerate(moments):
        scene = scene_of(moment.network, moment.report)
        if places is None or any(node.identity not in places for node in scene.nodes):
            places = places_of(scene)
        name = escape(f"step {moment.number}: {moment.name}", quote=True)
        steps.append(f'<div class="step" data-name="{name}">{svg_picture(scene, places, str(place))}</div>')
    rows = ["<tr>" + "".join(f"<td>{escape(cell)}</td>" for cell in row) + "</tr>" for row in rows_of(moments)]
    headings = "".join(f"<th>{heading}</th>" for heading in HEADINGS)
    return _PAGE.format(title=escape(title), steps="\n".join(steps), headings=headings, rows="\n".join(rows))
