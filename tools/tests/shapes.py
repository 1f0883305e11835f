"""Prints the parts of a picture of `lags` or `timeline`: the colors and names of its legend, those of its lines by
their titles, and the numbers of lines and areas with a title, or whether bars have one, in the grey of others or not.

Usage: shapes.py FILE
"""

import collections
import sys
import xml.etree.ElementTree as tree

SVG = "{http://www.w3.org/2000/svg}"
OTHERS = "#b3b3b3"


def color_of(element):
    return next(it for it in (element.get("stroke"), element.get("fill")) if it and it != "none")


def main():
    elements, drawn = list(tree.parse(sys.argv[1]).getroot()), collections.Counter()
    for box, text in zip(elements, elements[1:]):
        if box.tag == SVG + "rect" and box.get("width") == box.get("height") == "10":
            print(box.get("fill"), text.text)
    for it in elements:
        for title in it.findall(SVG + "title"):
            drawn[it.tag[len(SVG) :], "others" if color_of(it) == OTHERS else "named"] += 1
            if it.tag == SVG + "polyline":
                print(color_of(it), title.text.partition(":")[0])
    for (tag, what), count in sorted(drawn.items()):
        print(tag, what, "some" if tag == "rect" else count)


if __name__ == "__main__":
    main()
