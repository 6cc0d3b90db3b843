"""The picture as a page for a browser: one file, which loads nothing.

The replay is carried out here, by the machine that the tests hold against the engine; the page only shows its steps.
"""

import json
from pathlib import Path
from xml.sax.saxutils import escape

from .picture import Picture
from .recovery import restart_events
from .svg import STYLE, element, heads

HERE = Path(__file__).resolve().parent

PAGE = """<!DOCTYPE html>
<html lang="en">
<head>
<meta charset="utf-8">
<meta name="viewport" content="width=device-width">
<meta http-equiv="Content-Security-Policy"
      content="default-src 'none'; style-src 'unsafe-inline'; script-src 'unsafe-inline'">
<title>{title}</title>
<style>{svg_style}{style}</style>
<noscript><style>#stage {{ overflow: auto; }}</style></noscript>
</head>
<body>
<header><h1>{title}</h1><p>{total}</p>{left_out}</header>
<main>
<div id="stage" tabindex="0" aria-label="the run: drag to move, wheel to zoom">
{picture}
<div id="names" aria-hidden="true"></div>
<div id="numbers" aria-hidden="true"></div>
<div id="zoom">
<button id="closer" title="closer (+)">+</button><button id="farther" title="farther (−)">−</button>
<button id="all" title="the whole picture (0)">all</button><button id="to-cut" title="the cut (c)">cut</button>
</div>
</div>
<aside>
<section id="said" aria-live="polite"><h2 id="count"></h2><p id="did"></p></section>
<p id="sums"></p>
<table><thead><tr><th>process</th><th>next</th><th>waits for</th></tr></thead><tbody id="waits"></tbody></table>
<h3>Kept messages to be handed over</h3>
<ul id="kept"></ul>
<details><summary>Signs and colours</summary>{legend}
<ul class="colours"><li class="put">in the channel now</li><li class="received">received in the replay</li>
<li class="dropped">sent again and dropped</li></ul></details>
</aside>
</main>
<footer>
<button id="first" title="to the beginning (Home)">|◀</button><button id="back" title="a step back (←)">◀</button>
<button id="play" title="play (blank)">play</button>
<button id="on" title="a step on (→)">▶</button><button id="last" title="to the end (End)">▶|</button>
<input id="slider" type="range" min="0" max="{steps}" value="0" aria-label="step of the replay">
<output id="place"></output>
<label><input id="follow" type="checkbox" checked> follow</label>
</footer>
<div id="tip" role="tooltip" hidden></div>
<noscript>Without scripts the page is a picture only.</noscript>
<script id="data" type="application/json">{data}</script>
<script>{script}</script>
</body>
</html>
"""


def message_class(message, run, recovery, restarts):
    """What becomes of a message: as the output says, or by where its sender restarts."""
    if message.name() in recovery.orphans:
        return "orphan"
    if message.name() in recovery.kept:
        return "kept"
    if message.sent <= restarts[message.sender]:
        return "over"
    return "again" if message.sent <= run.cut else "later"


def data_of(run, recovery, shown, picture, lowest):
    """What the script needs: numbers only, but for values, which a script's numbers cannot hold, and words."""
    at, restarts = picture.at, restart_events(run, recovery)
    number = {id(message): place for place, message in enumerate(run.messages)}
    drawn = set(at.events)

    def rounded(value):
        return round(value, 1)

    def place_of(message):
        return -1 if message is None else number[id(message)]

    def message_row(message):
        name, kind = message.name(), message_class(message, run, recovery, restarts)
        phase = recovery.orphans.get(name, recovery.kept.get(name, 0))      # 0: the output does not tell it
        return [*name, str(message.value), message.sent, message.received or 0, kind, phase]

    return {
        "cut": run.cut, "lowest": lowest, "complete": shown.complete(),
        "first": at.first, "last": at.last,
        "at": {"width": rounded(at.width), "top": rounded(at.top - at.half - 46), "bottom": rounded(at.axis + 10),
               "start": at.start, "end": rounded(at.end), "cut": rounded(at.cut), "hasCut": at.has_cut,
               "dy": rounded(at.dy), "mark": rounded(at.radius)},
        "processes": [{"status": picture.status(process), "failed": process in run.failed,
                       "stays": recovery.stays(process),
                       "y": rounded(at.y(process)) if process in at.row else None,
                       "x": rounded(picture.restart_x(process)) if process in at.row else None}
                      for process in range(run.procs)],
        "events": [[event.kind, event.at, place_of(event.message), event.epoch] for event in run.events],
        "x": [rounded(at.x(place)) if place in drawn else None for place in range(1, len(run.events) + 1)],
        "messages": [message_row(message) for message in run.messages],
        "steps": [[step.choice, step.process, step.event or 0, step.did, place_of(step.message)]
                  for step in shown.steps],
        "waits": [[[since, wait.why, wait.about, wait.event] for since, wait in waits] for waits in shown.waits]}


def inline(data):
    """JSON that no reader of HTML takes for a tag."""
    return json.dumps(data, separators=(",", ":")).replace("<", "\\u003c")


def picture_svg(picture):
    at = picture.at
    height = at.axis + 24
    markers = heads(picture.head_size(), ("plain", "orphan", "kept", "put", "received"))
    return element("svg", "\n", markers, "\n", "\n".join(picture.drawn()), "\n", element("g", id="tokens"),
                   id="picture", xmlns="http://www.w3.org/2000/svg", role="img", aria_label=picture.heading()[0],
                   width=at.width, height=height, **picture.dense())


def legend_svg(picture):
    legend, height = picture.legend(width=290, top=24)
    return element("svg", *legend, xmlns="http://www.w3.org/2000/svg", width=280, height=height, id="legend")


def page(run, recovery, view, shown, lowest):
    picture = Picture(run, recovery, view, live=True)
    title, total = picture.heading()
    left_out = picture.left_out()
    return PAGE.format(
        title=escape(title), total=escape(total + "; no message is lost"),
        left_out=f"<p>{escape(left_out)}</p>" if left_out else "",
        svg_style=STYLE, style=(HERE / "page.css").read_text(encoding="utf-8"),
        picture=picture_svg(picture), legend=legend_svg(picture), steps=len(shown.steps),
        data=inline(data_of(run, recovery, shown, picture, lowest)),
        script=(HERE / "page.js").read_text(encoding="utf-8"))
