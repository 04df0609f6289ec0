"""How gate/javascript uses docs/try.html in a browser as a person would: by keys, and by looking."""

import os
import time

from browser import COMPLAINTS, Browser, Page
from shared.gate import GATE, read_text

CONTRAST = os.path.join(GATE, "page_checks", "contrast.js")

# The least contrast of a text that is well, by WCAG 2 (1.4.3).
LEAST_CONTRAST = 4.5

# What has the keys, as a person would call it, and what the page says: what is refused, or what clocks at the offset show.
FOCUSED = "document.activeElement.id || document.activeElement.textContent"
SAID = """(() => {
    const refused = document.getElementById("refused");
    return refused.hidden ? document.querySelector(".there td").textContent : refused.querySelector("b").textContent;
})()"""

# The fields, by their accessible names, each with whether it is invalid and what describes it.
NAMES = ("A text of RFC 3339, or a Unix second", "At the offset", "Compare with another (optional)")
ORDER = (
    "at",
    "offset",
    "other",
    "a leap day",
    "no such day",
    "the first second",
    "a leap second",
    "week 53",
    "year 10000",
    "the last nanosecond",
    "now",
    "link",
    "Python",
    "Rust",
    "C",
    "JavaScript",
    "SQLite",
    "PostgreSQL",
    "stamps",
    "Concepts",
)

# What the fields have in pictures: an answer, a refusal, the end of the range, and a text that is long.
STATES = {
    "shown": "#at=2024-02-28T23:30:00-01:00&offset=+02:00&other=2024-03-01T00:00:00Z",
    "refused": "#at=2023-02-29T12:00:00Z&offset=+02:00",
    "last": "#at=31494784780799.999999999&offset=-12:00&other=-31619087596800",
    "long": f"#at={'9' * 3_000}&offset=Z",
}
# Time zones, and the offset that `now` types in each.
ZONES = {"Asia/Kathmandu": "+05:45", "America/Caracas": "-04:00", "UTC": "Z"}
PRESS_NOW = "[...document.querySelectorAll('#examples button')].at(-1).click()"
TYPED = "['at', 'offset'].map((id) => document.getElementById(id).value)"

LOOKS = {"light": (900, False), "dark": (900, True), "narrow": (360, False), "narrow_dark": (320, True)}

# How many things are tried: by keys, in zones, by looks, and of the browser's complaints and requests.
CASES = 6 + len(ZONES) + 2 * len(LOOKS) * len(STATES) + 1 + 2


def fields_of(page):
    """The fields as a reader of the screen is told of them."""
    nodes = page.ask("Accessibility.getFullAXTree")["nodes"]
    for node in nodes:
        if not node.get("ignored") and node["role"]["value"] == "textbox":
            invalid = [each["value"].get("value") for each in node["properties"] if each["name"] == "invalid"]
            yield node["name"]["value"], invalid == ["true"], node.get("description", {}).get("value", "")


def read_until(read, wanted):
    """What is read once it is as wanted, or after ten seconds: a reader of the screen is told of a change a little later."""
    end = time.monotonic() + 10
    while (found := read()) != wanted and time.monotonic() < end:
        time.sleep(0.1)
    return found


def use_keys(browser, address):
    """Uses the page by keys alone: what is wrong of each thing that is tried."""
    page = Page(browser, address, 900)
    order = []
    for _ in ORDER:
        order.append(page.value(FOCUSED))
        page.press("Tab")
    yield "Tab goes through the fields, the examples and the links", None if tuple(order) == ORDER else f"in the order {order}"
    page = Page(browser, address, 900)
    page.type("2023-02-29T00:00:00Z")
    wanted = [(name, name == NAMES[0], f"{NAMES[0]} DAY_OF_MONTH " if name == NAMES[0] else "") for name in NAMES]

    def beginnings():
        return [(name, wrong, text[: len(like[2])] or text) for (name, wrong, text), like in zip(fields_of(page), wanted)]

    told = read_until(beginnings, wanted)
    yield "a refusal describes its field, and no other", None if told == wanted else f"but {told}"
    page.type("0")
    page.press("Tab")
    page.type("+01:00")
    page.press("Enter")
    said = page.value(SAID)
    yield "what is typed is answered", None if said == "1970-01-01T01:00:00+01:00" else f"with {said}"
    told = read_until(lambda: [text for _, _, text in fields_of(page)], [""] * 3)
    yield "where nothing is refused, nothing describes a field", None if told == [""] * 3 else f"but {told}"
    again = Page(browser, page.value("document.getElementById('link').href"), 900)
    said = again.value(SAID)
    yield "a link says the same again", None if said == "1970-01-01T01:00:00+01:00" else f"but {said}"
    for _ in range(3):
        page.press("Tab")
    page.press(" ")
    said = page.value(SAID)
    yield "an example is shown by the space bar", None if said == "DAY_OF_MONTH" else f"but {said}"


def use_now(browser, address):
    """Has the page type what the clock of this machine shows, in some zones."""
    for zone, offset in ZONES.items():
        page = Page(browser, address, 900)
        page.ask("Emulation.setTimezoneOverride", timezoneId=zone)
        page.value(PRESS_NOW)
        at, typed = page.value(TYPED)
        fine = typed == offset and abs(int(at) - time.time()) < 60
        yield f"now in {zone}", None if fine else f"{at} at {typed}"


def look(browser, address, pictures):
    """Looks at the page, light and dark, wide and narrow, and writes pictures of it where a folder is named."""
    papers = set()
    contrast_of = read_text(CONTRAST)
    for name, (width, is_dark) in LOOKS.items():
        for state, typed in STATES.items():
            page = Page(browser, address + typed.replace("+", "%2B"), width, is_dark)
            wide, contrast = page.value("document.documentElement.scrollWidth"), page.value(contrast_of)
            papers.add((is_dark, page.value("getComputedStyle(document.body).backgroundColor")))
            yield f"{name}, {state}: nothing is cut", f"it is {wide} wide" if wide > width else None
            is_faint = contrast < LEAST_CONTRAST
            yield f"{name}, {state}: all can be read", f"a contrast of {contrast:.2f}" if is_faint else None
            if pictures:
                page.picture(os.path.join(pictures, f"{name}_{state}.png"))
            browser.ask("Target.closeTarget", targetId=page.target)
    yield "light and dark differ", None if len(papers) == 2 else f"but {papers}"


def use_page(page, pictures):
    """What is wrong of each thing that is tried with the page at that path in a browser."""
    browser, address = Browser(), f"file://{page}"
    try:
        yield from use_keys(browser, address)
        yield from use_now(browser, address)
        yield from look(browser, address, pictures)
        told = [event["params"] for event in browser.events if event["method"] in COMPLAINTS]
        yield "the browser complains of nothing", str(told[:3]) if told else None
        requests = [event["params"]["request"] for event in browser.events if event["method"] == "Network.requestWillBeSent"]
        asked = [request["url"].partition("#")[0] for request in requests]
        others = [each for each in asked if each != address]
        yield "the page alone is loaded", None if asked and not others else f"and {others[:3]}"
    finally:
        browser.close()
