"""Pieces of SVG."""

from xml.sax.saxutils import escape, quoteattr

# Each class of message has a dash pattern beside its colour, so that a print in black and white tells them apart.
STYLE = """
text { font-family: sans-serif; fill: #222; }
.title { font-size: 18px; font-weight: bold; }
.total { font-size: 13px; }
.name { font-size: 13px; font-weight: bold; text-anchor: end; }
.status { font-size: 11px; text-anchor: end; }
.small { font-size: 10px; text-anchor: middle; }
.said-orphan { fill: #b00020; }
.said-kept { fill: #1550b0; }
.legend { font-size: 11px; }
.tiny { font-size: 8px; text-anchor: middle; }
.again { font-size: 10px; font-weight: bold; }
.count { font-size: 10px; font-weight: bold; text-anchor: middle; fill: #1550b0; }
.tick { font-size: 9px; text-anchor: middle; fill: #555; }
.axis { font-size: 9px; text-anchor: end; fill: #555; }
.ground { fill: #fff; }
.behind { fill: #fff; fill-opacity: .88; }
.undone { fill: #fce8cc; }
.line { stroke: #222; stroke-width: 1.4; }
.cut { stroke: #222; stroke-width: 1.6; }
.send, .save { fill: #222; }
.receive, .unfinished { fill: #fff; stroke: #222; stroke-width: 1.5; }
.done { stroke: #222; stroke-width: 2; }
.writing { stroke: #a8a8a8; stroke-width: 5; }
.flag { fill: #14703c; stroke: #14703c; stroke-width: 1.8; stroke-linejoin: round; }
.cross { stroke: #b00020; stroke-width: 3; stroke-linecap: round; }
.plain, .orphan, .kept { fill: none; }
.plain { stroke: #555; stroke-width: 1.3; }
.orphan { stroke: #b00020; stroke-width: 2; stroke-dasharray: 9 4; }
.kept { stroke: #1550b0; stroke-width: 2; stroke-dasharray: 2 3; }
.dense .kept { stroke-width: 1.3; opacity: .75; }
.dense .orphan { stroke-width: 1.6; }
.dense .plain { stroke-width: 1; opacity: .6; }
.band { stroke: #9db9e4; stroke-width: 5; }
.point { fill: #1550b0; }
.leader { stroke: #888; stroke-width: .8; }
.head { stroke-width: 1.3; }
.of-plain { fill: #555; stroke: #555; }
.of-orphan { fill: #b00020; stroke: #b00020; }
.of-kept { fill: #1550b0; stroke: #1550b0; }
.open { fill: #fff; }
.pale { opacity: .4; }
"""


def decimal(value):
    return f"{value:.1f}".removesuffix(".0")


def element(tag, *children, **attributes):
    """An element; cls is its class, an underscore in a name stands for a hyphen. Children are finished XML."""
    pairs = []
    for key, value in attributes.items():
        key = "class" if key == "cls" else key.replace("_", "-")
        pairs.append(f" {key}={quoteattr(value if isinstance(value, str) else decimal(value))}")
    inner = "".join(children)
    return f"<{tag}{''.join(pairs)}>{inner}</{tag}>" if inner else f"<{tag}{''.join(pairs)}/>"


def tooltip(words):
    """What a viewer shows when the pointer rests on the element around it."""
    return element("title", escape(words))


def written(words, x, y, cls):
    return element("text", escape(words), x=x, y=y, cls=cls)


def written_width(words, size):
    """A guess on the wide side: the viewer chooses the font."""
    return 0.61 * size * len(words)


def stroke(x1, y1, x2, y2, cls):
    return element("line", x1=x1, y1=y1, x2=x2, y2=y2, cls=cls)


def box(x, y, width, height, cls):
    """A rectangle by its middle."""
    return element("rect", x=x - width / 2, y=y - height / 2, width=width, height=height, cls=cls)


def arrow(points, kind, head=None):
    """A message's way, or a part of it; the head, end or open, is at the last point."""
    way = " ".join(f"{decimal(x)},{decimal(y)}" for x, y in points)
    ending = {"marker_end": f"url(#{kind}-{head})"} if head else {}
    return element("polyline", points=way, cls=kind, **ending)


def heads(size, kinds=("plain", "orphan", "kept")):
    """Arrow heads, closed and open, of each class of message: not every viewer lends a head the colour of its line."""
    markers = []
    for kind in kinds:
        for name, cls in ("end", f"head of-{kind}"), ("open", f"head of-{kind} open"):
            shape = element("path", d="M0.7,1.2L9,5L0.7,8.8Z", cls=cls)
            markers.append(element("marker", shape, id=f"{kind}-{name}", viewBox="0 0 10 10", refX=9, refY=5,
                                   orient="auto", markerWidth=size, markerHeight=size, markerUnits="userSpaceOnUse"))
    return element("defs", *markers)


def cross(x, y, r):
    """The mark of a failed process."""
    return stroke(x - r, y - r, x + r, y + r, "cross") + stroke(x - r, y + r, x + r, y - r, "cross")


def flag(x, y, half, size):
    """The mark of a restart: a pole across the process line, with a pennant that points on."""
    pole = f"M{decimal(x)},{decimal(y + half)}V{decimal(y - half)}"
    pennant = f"l{decimal(size)},{decimal(size / 2)}l{decimal(-size)},{decimal(size / 2)}"
    return element("path", d=pole + pennant, cls="flag")


def pale(after_cut, *children):
    return element("g", *children, cls="pale") if after_cut and any(children) else "".join(children)
