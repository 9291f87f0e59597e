"""Puts the drawing, the library and the scripts together into one page that needs no network."""
import json
import pathlib

PAGE = pathlib.Path(__file__).resolve().parents[1] / "page"
LIBRARY = pathlib.Path("/usr/share/javascript/d3/d3.min.js")
SCRIPTS = ("trace.js", "lanes.js", "glyphs.js", "causes.js", "paint.js", "arrows.js", "panel.js", "control.js")


class Missing(Exception):
    """A package that is not installed."""


def template():
    try:
        import jinja2
    except ImportError:
        raise Missing("jinja2 is missing: install the Debian package python3-jinja2") from None
    loader = jinja2.FileSystemLoader(PAGE)
    return jinja2.Environment(loader=loader, autoescape=True, undefined=jinja2.StrictUndefined).get_template("page.html")


def library():
    try:
        text = LIBRARY.read_text(encoding="utf-8")
    except OSError:
        raise Missing(f"{LIBRARY} is missing: install the Debian package libjs-d3") from None
    if 'version:"3.' not in text:
        raise Missing(f"{LIBRARY} is not d3 of version 3, which the page is written for")
    return text


def in_script(text):
    """The text as it may stand in a script element: nothing in it ends the element."""
    return text.replace("</", "<\\/").replace("<!--", "<\\!--")


def make_page(data):
    """The page as text."""
    encoded = json.dumps(data, separators=(",", ":"), ensure_ascii=True).replace("<", "\\u003c")
    return template().render(
        title=data["title"], style=(PAGE / "page.css").read_text(encoding="utf-8"), library=in_script(library()),
        scripts=[in_script((PAGE / name).read_text(encoding="utf-8")) for name in SCRIPTS], data=encoded)
