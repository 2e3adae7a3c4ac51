"""The small shapes that a picture is made of, and how they look.

A look is a name that a style sheet gives colours to, once for light
backgrounds and once for dark ones. The colours of the phases differ in
lightness as well as in hue, so they can be told apart by colour-blind readers
and in print without colours. Everything else is black, grey or a pattern.
"""

from .moments import CANDIDATE, EVICTED, IN_USE, UNHELD

COLOURS = {  # on a light background, on a dark one
    "ground": ("#ffffff", "#14181d"),
    "ink": ("#1a1a1a", "#eceff2"),
    "grey": ("#5f6873", "#9aa5b1"),
    "pale": ("#d5dae0", "#39424c"),
    "grid": ("#e9ecef", "#262d35"),
    "edge": ("#4a5561", "#8b97a4"),
    "grant": ("#f1f3f5", "#262d35"),
    "busy": ("#b4bdc8", "#5a6673"),
    "idle": ("#e8ebee", "#2b333c"),
    "bar": ("#c9b3d6", "#5d4570"),
    "hand": ("#7a2f8f", "#cf8fe3"),
    "held": ("#7a2f8f", "#a871ba"),
}
# Of the four phases: to do a stage, the letters on it, and to stand there. In
# greys the first are at least 40 of 255 apart, the last at least 12.
PHASES = {"light": ("#6db8e8", "#f7e463", "#c8601a", "#173a6b"),
          "dark": ("#6db8e8", "#f7e463", "#c8601a", "#24539a")}
LETTERS = ("#1a1a1a", "#1a1a1a", "#ffffff", "#ffffff")
FAINT = {"light": ("#cfe6f7", "#fbf5c9", "#ecbb97", "#98a9c6"),
         "dark": ("#24506b", "#6b6220", "#5f2f0d", "#1a2b4e")}

RULES = {  # the looks; {name} stands for the colour of that name
    "ground": "fill:{ground}",
    "ink": "fill:{ink}",
    "grey": "fill:{grey}",
    "rule": "stroke:{pale}",
    "grid": "stroke:{grid}",
    "before": "stroke:{ink};stroke-dasharray:4,3",
    "mark": "fill:{ground};stroke:{ink};stroke-width:1.2",
    "refusal": "fill:{ink}",
    "in-refusal": "fill:{ground}",
    "cross": "fill:none;stroke:{ink};stroke-width:1.8",
    "halo": "fill:none;stroke:{ground};stroke-width:4",
    "grant": "fill:{grant}",
    "grant-edge": "fill:none;stroke:{edge}",
    "comes": "stroke:{ink}",
    "in-use": "fill:{busy}",
    "unheld": "fill:{idle}",
    "candidate": "fill:url(#dots);stroke:{edge};stroke-dasharray:3,2",
    "evicted": "fill:url(#gone)",
    "stripe": "stroke:{edge};stroke-width:0.8",
    "dot": "fill:{busy}",
    "count": "fill:{bar}",
    "hand": "stroke:{hand};stroke-width:2.5",
    "filled": "fill:{idle};stroke:{grey}",
    "held": "fill:{held}",
}
CONTENTS = {IN_USE: "in-use", UNHELD: "unheld", CANDIDATE: "candidate",
            EVICTED: "evicted"}

# The patterns of an evicted frame and of a candidate.
DEFS = ('<pattern id="gone" width="5" height="5" '
        'patternUnits="userSpaceOnUse"><rect width="5" height="5" '
        'class="ground"/><path d="M-1,1 L1,-1 M0,5 L5,0 M4,6 L6,4" '
        'class="stripe"/></pattern>'
        '<pattern id="dots" width="6" height="6" '
        'patternUnits="userSpaceOnUse"><rect width="6" height="6" '
        'class="ground"/><rect x="2" y="2" width="1.2" height="1.2" '
        'class="dot"/></pattern>')


def sheet(background):
    """The rules for one kind of background."""
    at = ("light", "dark").index(background)
    colours = {name: pair[at] for name, pair in COLOURS.items()}
    rules = [".%s{%s}" % (look, rule.format(**colours))
             for look, rule in RULES.items()]
    for place, letter in enumerate(LETTERS):
        rules.append(".phase%d{fill:%s}" % (place,
                                            PHASES[background][place]))
        rules.append(".faint%d{fill:%s}" % (place, FAINT[background][place]))
        rules.append(".in-phase%d{fill:%s}" % (place, letter))
    return "".join(rules)


def style():
    """The whole style sheet."""
    return ("%s@media (prefers-color-scheme:dark){%s}"
            % (sheet("light"), sheet("dark")))


def begin(canvas, x, y, size, tip=None):
    """A request begins: an open triangle that points forward."""
    canvas.polygon(((x - size * 0.7, y - size), (x + size * 0.9, y),
                    (x - size * 0.7, y + size)), look="mark", tip=tip)


def release(canvas, x, y, size, tip=None):
    """A grant ends: an open triangle that points back."""
    canvas.polygon(((x + size * 0.7, y - size), (x - size * 0.9, y),
                    (x + size * 0.7, y + size)), look="mark", tip=tip)


def refusal(canvas, x, y, size, tip=None):
    """A black octagon."""
    cut = size * 0.42
    canvas.polygon(((x - size, y - cut), (x - cut, y - size),
                    (x + cut, y - size), (x + size, y - cut),
                    (x + size, y + cut), (x + cut, y + size),
                    (x - cut, y + size), (x - size, y + cut)),
                   look="refusal", tip=tip)


def eviction(canvas, x, y, size, tip=None):
    """A cross, with a clear edge so that it is seen on any ground."""
    path = "M%.2f,%.2f L%.2f,%.2f M%.2f,%.2f L%.2f,%.2f" % (
        x - size, y - size, x + size, y + size,
        x - size, y + size, x + size, y - size)
    canvas.shape("path", d=path, look="halo")
    canvas.shape("path", tip=tip, d=path, look="cross")


def given_up(canvas, x, y, size, tip=None):
    """An open diamond."""
    canvas.polygon(((x, y - size), (x + size, y), (x, y + size),
                    (x - size, y)), look="mark", tip=tip)


def arrow(canvas, x, y, size, up, tip):
    """An open arrow; its mirror image points down."""
    half, ahead = size * 0.45, -1 if up else 1
    canvas.polygon([(x + across, y + ahead * along) for across, along in (
        (0, size * 1.1), (size, 0), (half, 0), (half, -size),
        (-half, -size), (-half, 0), (-size, 0))], look="mark", tip=tip)


def revival(canvas, x, y, size, tip=None):
    """An arrow that points up: the page comes back."""
    arrow(canvas, x, y, size, True, tip)


def drop(canvas, x, y, size, tip=None):
    """An arrow that points down: the page leaves."""
    arrow(canvas, x, y, size, False, tip)


MARKS = {14: eviction, 17: drop, 20: given_up, 22: revival, 23: given_up}


def grant(canvas, x, y, width, height, tip=None, begins=True, ends=True):
    """A bar; where it goes on out of sight it has no edge."""
    canvas.box(x, y, width, height, tip=tip, look="grant")
    left, right, bottom = x + 0.5, x + width - 0.5, y + height
    path = "M%.2f,%.2f H%.2f" % (left, y, right)
    path += (" V%.2f" if ends else " M%.2f,%%.2f" % right) % bottom
    path += " H%.2f" % left
    canvas.shape("path", d=path + (" V%.2f" % y if begins else ""),
                 look="grant-edge")


def hand(canvas, x1, x2, y):
    """A line below the slot that the hand's value stands for."""
    canvas.line(x1, y, x2, y, look="hand")


def count(canvas, x, bottom, width, height, value, most):
    """A bar, as high as the most may be; what is not 0 can be seen."""
    if value > 0:
        high = max(1, height * value / most)
        canvas.box(x, bottom - high, width, high, look="count")
