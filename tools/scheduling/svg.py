"""Shapes and text of a picture, as SVG 1.1."""

from html import escape

# The fonts are generic, so how wide a text becomes is not known. Few are
# wider than this part of their size for each character.
WIDTH_OF_CHARACTER = 0.62


def text_width(text, size):
    return len(text) * size * WIDTH_OF_CHARACTER


def number(value):
    """A coordinate with two digits after the point, if it needs them."""
    return ("%.2f" % value).rstrip("0").rstrip(".")


def attributes(values):
    """Attributes out of keywords: '_' stands for '-', None for no such.

    A look is the name of a rule in the style sheet.
    """
    parts = []
    for name, value in values.items():
        if value is not None:
            shown = value if isinstance(value, str) else number(value)
            name = "class" if name == "look" else name.replace("_", "-")
            parts.append(' %s="%s"' % (name, escape(shown)))
    return "".join(parts)


class Canvas:
    """The elements of a picture in their order."""

    def __init__(self):
        self.parts = []

    def open(self, tag, **values):
        self.parts.append("<%s%s>" % (tag, attributes(values)))

    def close(self, tag):
        self.parts.append("</%s>" % tag)

    def shape(self, tag, tip=None, **values):
        """An element; a tip is shown where the reader points at it."""
        if tip is None:
            self.parts.append("<%s%s/>" % (tag, attributes(values)))
        else:
            self.parts.append("<%s%s><title>%s</title></%s>"
                              % (tag, attributes(values), escape(tip), tag))

    def box(self, x, y, width, height, **values):
        self.shape("rect", x=x, y=y, width=width, height=height, **values)

    def line(self, x1, y1, x2, y2, **values):
        self.shape("line", x1=x1, y1=y1, x2=x2, y2=y2, **values)

    def polygon(self, points, **values):
        self.shape("polygon",
                   points=" ".join("%s,%s" % (number(x), number(y))
                                   for x, y in points), **values)

    def text(self, x, y, text, **values):
        self.parts.append("<text%s>%s</text>"
                          % (attributes(dict(x=x, y=y, **values)),
                             escape(text)))

    def whole(self, width, height, title, style, defs):
        """The picture as a file; the look 'ground' is its background."""
        head = attributes({
            "xmlns": "http://www.w3.org/2000/svg", "version": "1.1",
            "width": width, "height": height,
            "viewBox": "0 0 %s %s" % (number(width), number(height)),
            "font-family": "sans-serif"})
        return ('<?xml version="1.0" encoding="UTF-8"?>\n'
                "<svg%s>\n<title>%s</title>\n<style>%s</style>\n"
                "<defs>%s</defs>\n"
                '<rect width="%s" height="%s" class="ground"/>\n%s\n</svg>\n'
                % (head, escape(title), style, defs, number(width),
                   number(height), "\n".join(self.parts)))


class Lane:
    """Texts in one line, none of which may run into another."""

    GAP = 4

    def __init__(self, canvas, y, size):
        self.canvas, self.y, self.size = canvas, y, size
        self.taken = []  # pairs of where something begins and ends

    def reserve(self, x, end):
        """Keep texts away from here."""
        self.taken.append((x, end))

    def put(self, x, end, *texts, look):
        """Put the first text that has room from x to the end, if any has."""
        for text in texts:
            width = text_width(text, self.size)
            if x + width <= end and self.is_free(x, x + width):
                self.reserve(x, x + width + self.GAP)
                self.canvas.text(x, self.y, text, font_size=self.size,
                                 look=look)
                return True
        return False

    def is_free(self, x, end):
        return all(end <= begun or x >= ended for begun, ended in self.taken)
