"""The links of pages, which lead to files and to headings."""

import os
import re
from pathlib import Path

# the words of a link, the path of a file unless the link is within the page, and the heading with its `#`
LINK = re.compile(r"\[([^\]]*)\]\(([^)#\s]*)(#[^)\s]*)?\)")
HEADING = re.compile(r"^#+ (.+)$", re.MULTILINE)
ELSEWHERE = re.compile(r"[a-z]+:")


def anchor(heading):
    """The name by which a link names a heading."""
    return "#" + re.sub(r"[^\w\- ]", "", heading.lower()).replace(" ", "-")


def dead_links(path):
    """The links of a page that don't lead to a file, or to the heading that they name."""
    for _, name, heading in LINK.findall(path.read_text()):
        if ELSEWHERE.match(name):
            continue
        target = path.parent / name if name else path
        if not target.exists():
            yield f"no file {name}{heading}"
        elif heading and heading not in map(anchor, HEADING.findall(target.read_text())):
            yield f"no heading {name}{heading}"


def dead_links_under(folder):
    """The dead links of all pages under a folder."""
    return [f"{path.name}: {fault}" for path in sorted(folder.rglob("*.md")) for fault in dead_links(path)]


def installed_text(page, places, top):
    """The text of a page as it is installed. `places` gives the installed paths of files, also of the page.

    Links lead to these paths. A link to another file becomes its words, or the file's path below `top` if the words are
    the name of the file.
    """

    def linked(found):
        words, name, heading = found.groups(default="")
        if not name or ELSEWHERE.match(name):
            return found[0]
        file = Path(os.path.normpath(page.parent / name))
        if file in places:
            return f"[{words}]({os.path.relpath(places[file], places[page].parent)}{heading})"
        return str(file.relative_to(top)) if words == file.name else words

    return LINK.sub(linked, page.read_text())
