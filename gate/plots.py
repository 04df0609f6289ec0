"""The plot of docs/guide/PYTHON.md: as matplotlib draws it, in the colours of the reader, light or dark."""

import os
import re

from shared.gate import REPOSITORY, read_text, write_text

NAME = "counts_by_hour.svg"
PAGE = os.path.join(REPOSITORY, "docs", "guide", NAME)

# The settings of matplotlib for a picture of texts, which is the same in each run.
SETTINGS = "backend: svg\nsvg.fonttype: none\nsvg.hashsalt: muxandu\nfont.family: sans-serif\nfont.sans-serif: DejaVu Sans\n"

# The colours that matplotlib draws with, and those of the page on light and on dark paper.
COLOURS = {
    "#ffffff": ("paper", "#ffffff", "#0d1117"),
    "#000000": ("ink", "#1b1b1b", "#e6edf3"),
    "#b0b0b0": ("ruler", "#d0d0d0", "#30363d"),
    "#1f77b4": ("bar", "#2f6fb0", "#6aa9e9"),
}
STYLE = "<style>:root{{{}}}@media (prefers-color-scheme: dark){{:root{{{}}}}}text{{fill:var(--ink)}}</style>"


def in_both_colours(drawn):
    """A picture of matplotlib in the colours of the page, with its title for those who hear it."""
    version = re.search(r"Matplotlib v([\d.]+)", drawn)[1]
    title = re.search(r"<text[^>]*>(Lines of .*?)</text>", drawn)[1]
    body = re.sub(r"\s*<metadata>.*?</metadata>", "", drawn[drawn.index("<svg") :], flags=re.DOTALL)
    for colour, (name, _, _) in COLOURS.items():
        body = body.replace(colour, f"var(--{name})")
    left = re.findall(r"#[0-9a-f]{6}\b", body)
    if left:
        raise ValueError(f"{NAME} has colours that no paper has: {', '.join(sorted(set(left)))}")
    papers = (";".join(f"--{name}:{colours[paper]}" for name, *colours in COLOURS.values()) for paper in (0, 1))
    head, _, rest = body.replace("'sans-serif'", "sans-serif").partition(">")
    head = re.sub(r' (?:width|height)="[^"]*"', "", head).replace("<svg", '<svg role="img" aria-labelledby="title"')
    made = f"<!-- Made by gate/python with matplotlib {version}. Do not edit. -->"
    return f'{head}>\n<title id="title">{title}</title>\n{made}\n{STYLE.format(*papers)}{rest}'


def drawn_in(folder):
    """The picture that a program has drawn in a folder."""
    return in_both_colours(read_text(os.path.join(folder, NAME)))


def compare(tally, folder):
    """Compares the picture that a program has drawn with that of the page, if the same matplotlib has drawn both."""
    case, made = f"docs/guide/{NAME} is as the program draws it", drawn_in(folder)
    standing = read_text(PAGE)
    versions = [re.search(r"with matplotlib ([\d.]+)\.", text)[1] for text in (standing, made)]
    if versions[0] != versions[1]:
        tally.skip(case, f"matplotlib {versions[0]} has drawn it, and {versions[1]} is installed")
        return
    tally.count(case, None if made == standing else "it is not: write it by gate/python write")


def write(folder):
    """Writes the picture that a program has drawn to the page."""
    made = drawn_in(folder)
    write_text(PAGE, made)
