"""The few elements of SVG that a picture needs."""
from html import escape

INK, GREY, PALE, BLUE, RED, GREEN = "#1b1b1b", "#5a5a5a", "#d4d4d4", "#1f5fa8", "#c0311a", "#1d7a34"
MANY = 200


def element(name, content="", **attributes):
    written = "".join(f" {key.replace('_', '-')}=\"{escape(str(value))}\"" for key, value in attributes.items())
    return f"<{name}{written}>{content}</{name}>" if content else f"<{name}{written}/>"


def group(content, **attributes):
    return element("g", "\n".join(["", *content, ""]), **attributes)


def text(x, y, words, **attributes):
    return element("text", escape(words), x=x, y=y, **{"fill": INK, **attributes})


def line(x1, y1, x2, y2, content="", **attributes):
    return element("line", content, x1=x1, y1=y1, x2=x2, y2=y2, **{"stroke": PALE, **attributes})


def dots(points, **attributes):
    """A dot for each point, smaller where there are many: a stroke of no length with round ends."""
    strokes, width = "".join(f"M{x} {y}h0" for x, y in points), 5 if len(points) < MANY else 2
    return element("path", d=strokes, fill="none", stroke=BLUE, stroke_width=width, stroke_linecap="round", **attributes)


def document(width, height, title, description, content):
    head = [element("title", escape(title), id="title"), element("desc", escape(description), id="description")]
    ground = element("rect", width=width, height=height, fill="#ffffff")
    return element("svg", "\n".join(["", *head, ground, *content, ""]), xmlns="http://www.w3.org/2000/svg",
                   viewBox=f"0 0 {width} {height}", width=width, height=height, role="img",
                   aria_labelledby="title description", font_family="sans-serif", font_size=14)
