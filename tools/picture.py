"""The common parts of the pictures of the tools beside this file: SVG, axes with round numbers, colors and legends."""

import colorsys
import html

# Colors that most people tell apart (Okabe and Ito, 2008), and the color of all others.
COLORS = ("#0072b2", "#e69f00", "#009e73", "#d55e00", "#cc79a7", "#56b4e9", "#000000", "#f0e442")
OTHERS = "#b3b3b3"
GRID, ZERO, INK = "#dddddd", "#999999", "#333333"
# The height of a line of a legend, and the greatest number of its names.
LINE, MOST_NAMES = 16, 20
# Units of time: their microseconds, and their names.
UNITS = ((1_000_000, "seconds"), (1_000, "milliseconds"), (1, "microseconds"))


def colors(count):
    """This number of colors."""
    if count <= len(COLORS):
        return list(COLORS[:count])
    hues = (colorsys.hls_to_rgb(place / count, (0.45, 0.62)[place % 2], 0.65) for place in range(count))
    return ["#" + "".join(f"{round(255 * part):02x}" for part in color) for color in hues]


class ColorByName(dict):
    """Colors for these names, and one for all others."""

    def __init__(self, names):
        super().__init__(zip(names, colors(len(names))))

    def __missing__(self, name):
        return OTHERS


def number(value):
    """A number with at most two places after the point."""
    return f"{value:.2f}".rstrip("0").rstrip(".")


def element(name, text=None, title=None, **attributes):
    """An element of SVG. Its title is shown where the mouse is on it; its attributes are written with _ for -."""
    attributes = {key.replace("_", "-"): it if isinstance(it, str) else number(it) for key, it in attributes.items()}
    told = "".join(f' {key}="{html.escape(it)}"' for key, it in attributes.items())
    inner = "" if title is None else f"<title>{html.escape(title, quote=False)}</title>"
    inner += "" if text is None else html.escape(text, quote=False)
    return f"<{name}{told}>{inner}</{name}>" if inner else f"<{name}{told}/>"


def label(x, y, text, anchor="start"):
    return element("text", text, x=x, y=y, text_anchor=anchor)


def ticks(low, high, most):
    """The multiples of 1, 2, 5, 10, 20 or so from low to high, about `most` of them at most."""
    step = 1
    while (high - low) / step > most:
        step = step * 5 // 2 if str(step)[0] == "2" else step * 2
    return range(-(-low // step) * step, high + 1, step)


def unit_of(low, high):
    """The unit of times in which an axis has two digits and more before the point, and its name."""
    return next(it for it in UNITS if high - low >= 10 * it[0] or it[0] == 1)


class Panel:
    """A rectangle of a picture, which shows moments from left to right, and other numbers from below."""

    def __init__(self, left, top, width, height, moments, numbers=(0, 1)):
        self.left, self.top, self.right, self.bottom = left, top, left + width, top + height
        self.moments, self.numbers = moments, numbers

    def x(self, moment):
        low, high = self.moments
        return self.left + (self.right - self.left) * (moment - low) / (high - low)

    def y(self, value):
        low, high = self.numbers
        return self.bottom - (self.bottom - self.top) * (value - low) / (high - low)

    def time_axis(self, is_told=True):
        """Lines at round moments, and their labels below."""
        low, high = self.moments
        unit, name = unit_of(low, high)
        for moment in ticks(low, high, 10):
            yield element("line", x1=self.x(moment), y1=self.top, x2=self.x(moment), y2=self.bottom, stroke=GRID)
            if is_told:
                yield label(self.x(moment), self.bottom + 15, number(moment / unit), "middle")
        if is_told:
            yield label((self.left + self.right) / 2, self.bottom + 32, name, "middle")

    def number_axis(self, unit=1):
        """Lines at round numbers, and beside them their labels in a unit; the line of 0 is darker."""
        for value in ticks(*self.numbers, 5):
            place = {"x1": self.left, "y1": self.y(value), "x2": self.right, "y2": self.y(value)}
            yield element("line", **place, stroke=GRID if value else ZERO)
            yield label(self.left - 6, self.y(value) + 4, number(value / unit), "end")

    def frame(self):
        size = {"width": self.right - self.left, "height": self.bottom - self.top}
        return element("rect", x=self.left, y=self.top, **size, fill="none", stroke=INK)


def legend(left, top, names):
    """A line for each pair of a name and a color, and a line with the number of names for which there is no room."""
    for place, (name, color) in enumerate(names[:MOST_NAMES]):
        yield element("rect", x=left, y=top + LINE * place, width=10, height=10, fill=color)
        yield label(left + 15, top + LINE * place + 9, name)
    if len(names) > MOST_NAMES:
        yield label(left, top + LINE * MOST_NAMES + 9, f"and {len(names) - MOST_NAMES} more")


def legend_height(count):
    """The height of a legend of this number of names."""
    return LINE * min(count, MOST_NAMES + 1)


def svg(width, height, elements):
    """A whole picture."""
    size = f'width="{number(width)}" height="{number(height)}" viewBox="0 0 {number(width)} {number(height)}"'
    head = f'<svg xmlns="http://www.w3.org/2000/svg" {size} font-family="sans-serif" font-size="11" fill="{INK}">'
    ground = element("rect", width=width, height=height, fill="white")
    return "\n".join(['<?xml version="1.0" encoding="UTF-8"?>', head, ground, *elements, "</svg>", ""])
