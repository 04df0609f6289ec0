"""Parts of the pictures that tools draw for the pages: SVG in the colours of the reader, light or dark."""

from xml.sax.saxutils import escape

# The colours of each class, on light paper and on dark paper.
COLOURS = {
    "paper": ("#ffffff", "#0d1117"),
    "ink": ("#1b1b1b", "#e6edf3"),
    "pale": ("#555555", "#9aa5b1"),
    "mark": ("#b3261e", "#ff8a80"),
    "first": ("#dbe9f6", "#1d3a57"),
    "second": ("#fbe8d3", "#5a3d1a"),
    "less": ("#2f6fb0", "#6aa9e9"),
    "more": ("#c4661f", "#f0a35e"),
}
LINES = {"rule": ("#7a7a7a", "#8b949e"), "ruler": ("#d0d0d0", "#30363d"), "mark-line": COLOURS["mark"]}


def style():
    """The rules of both papers."""

    def rules(paper):
        fills = [f".{name}{{fill:{colours[paper]}}}" for name, colours in COLOURS.items()]
        strokes = [f".{name}{{stroke:{colours[paper]}}}" for name, colours in LINES.items()]
        return "".join([*fills, *strokes, f".over{{stroke:{COLOURS['paper'][paper]};stroke-width:4;paint-order:stroke}}"])

    return f"<style>{rules(0)}@media (prefers-color-scheme: dark){{{rules(1)}}}</style>"


def picture(tool, title, width, height, lines):
    """A picture of these lines, with its title for those who hear the page."""
    head = [
        f'<svg xmlns="http://www.w3.org/2000/svg" viewBox="0 0 {width} {height}" role="img" aria-labelledby="title" '
        'font-family="sans-serif" font-size="14">',
        f'<title id="title">{escape(title)}</title>',
        f"<!-- Made by {tool}. Do not edit. -->",
        style(),
        f'<rect class="paper" width="{width}" height="{height}"/>',
    ]
    return "\n".join([*head, *lines, "</svg>"]) + "\n"


def text(x, y, words, anchor="start", kind="ink", **more):
    """Words at a place: `anchor` is the end of the words that is there, and `kind` their class. `over` hides lines below them."""
    rest = "".join(f' {name.replace("_", "-")}="{value}"' for name, value in more.items())
    return f'<text class="{kind}" x="{x}" y="{y}" text-anchor="{anchor}"{rest}>{escape(words)}</text>'


def line(x1, y1, x2, y2, kind="rule", **more):
    rest = "".join(f' {name.replace("_", "-")}="{value}"' for name, value in more.items())
    return f'<line class="{kind}" x1="{x1}" y1="{y1}" x2="{x2}" y2="{y2}"{rest}/>'


def box(x, y, width, height, kind, more=""):
    return f'<rect class="{kind}" x="{x}" y="{y}" width="{width}" height="{height}"{more}/>'
