"""A campaign as one page: a file without links to others, that a browser opens. Its texts, styles and code are beside this file."""
import os
from typing import List

from ..job import Job
from ..output import Text
from .content import Content
from .embedding import escaped

HERE = os.path.dirname(os.path.realpath(__file__))
SCRIPTS = ("model.js", "map.js", "pairs.js", "lanes.js", "detail.js", "page.js")


def write_page(output: Text, job: Job) -> None:
    """Reads the whole report, and writes the page."""
    content = Content(job)
    for part in template_parts():
        if part == "STYLE":
            output.write(read_part("page.css"))
        elif part == "SCRIPT":
            output.write("".join(map(read_part, SCRIPTS)))
        elif part == "DATA":
            content.write(output)
        elif part == "FIRSTS":
            content.write_firsts(output)
        elif part == "TITLE":
            output.write(escaped(content.title))
        else:
            output.write(part)


def template_parts() -> List[str]:
    """The page's frame, cut at its five places."""
    return read_part("page.html").split("@@")


def read_part(name: str) -> str:
    with open(os.path.join(HERE, name), encoding="utf-8") as it:
        return it.read()
