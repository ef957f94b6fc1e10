"""The page of a run as HTML."""
import html
import os
import re

from story import as_json, story_of

HERE = os.path.dirname(os.path.abspath(__file__))
# The data of a run, which draws nothing; what draws it; and the page.
DATA = ["sets.js", "read.js", "script.js", "members.js", "run.js", "waits.js"]
DRAWING = ["words.js", "canvas.js", "ring.js", "tables.js", "view.js"]
SCRIPTS = DATA + DRAWING + ["frame.js", "page.js"]


def part(name):
    with open(os.path.join(HERE, "web", name), encoding="utf-8") as file:
        return file.read()


def page_of(run, title, script=None):
    """The whole page: the frame, and in its places the title, the style, the story and the scripts."""
    places = {"TITLE": html.escape(title), "STYLE": part("page.css"), "VIEW": part("view.html"), "STORY": as_json(story_of(run, title, script)), "SCRIPTS": "\n".join(map(part, SCRIPTS))}
    return re.sub(r"\{\{([A-Z]+)\}\}", lambda mark: places[mark[1]], part("page.html"))
