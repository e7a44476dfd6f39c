"""The links of the documents: each must lead to a file, and to a heading if it has an anchor.

A reference in words, such as `docs/PROFILE.md`, "Replay", must name a heading, too. Anchors are those that
GitHub gives to headings. `packaging/pages` gives the same ones, as long as a heading has no two blanks or
hyphens next to each other once its punctuation is left out.
"""
import os
import re
from collections.abc import Iterator
from functools import cache

LINK = re.compile(r"\[(?:[^\[\]]|\[[^\]]*\])*\]\(([^()\s]+)\)")
# a page in backticks or as a link, and the headings in quotes that follow
IN_WORDS = re.compile(
    r"(?:`([\w./-]+\.md)`|\]\(([\w./-]+\.md)\))"
    r"((?:,? \(\"[^\"]+\"\)|, \"[^\"]+\")(?:(?:, | and )\"[^\"]+\")*)"
)
CODE = re.compile(r"`[^`]*`")


def anchor_of(heading: str) -> str:
    """Returns the anchor of a heading."""
    plain = re.sub(r"\[([^\]]*)\]\([^)]*\)", r"\1", heading.replace("`", ""))
    return re.sub(r"[^\w\s-]", "", plain.lower()).strip().replace(" ", "-")


def prose(text: str) -> Iterator[tuple[int, str]]:
    """Yields the lines of a page that are not in a block of code, with their numbers."""
    is_code = False
    for number, line in enumerate(text.splitlines(), 1):
        if line.lstrip().startswith("```"):
            is_code = not is_code
        elif not is_code:
            yield number, line


@cache
def headings_of(path: str) -> list[str]:
    """Returns the headings of a page."""
    with open(path, encoding="utf-8") as file:
        lines = [line for _, line in prose(file.read())]
    return [match[1].strip() for line in lines if (match := re.fullmatch(r"#{1,6} (.+)", line))]


def link_fault(page: str, target: str) -> str | None:
    """Returns what is wrong with the target of a link, or None."""
    name, _, anchor = target.partition("#")
    path = os.path.normpath(os.path.join(os.path.dirname(page), name)) if name else page
    if not os.path.exists(path):
        return "there is no such file"
    if not anchor:
        return None
    count = [anchor_of(heading) for heading in headings_of(path)].count(anchor)
    if count != 1:
        return "there is no such heading" if count == 0 else f"{count} headings have this anchor"
    return "its anchor differs in HTML: change the heading" if "--" in anchor else None


def page_named(page: str, name: str) -> str | None:
    """Returns the path of a page that a page names, from the root or from its own folder."""
    paths = (name, os.path.normpath(os.path.join(os.path.dirname(page), name)), f"docs/{name}")
    return next((path for path in paths if os.path.isfile(path)), None)


def link_faults(page: str) -> Iterator[tuple[int, str]]:
    """Yields the links and references of a page that lead nowhere, with their lines."""
    with open(page, encoding="utf-8") as file:
        text = file.read()
    for number, line in prose(text):
        for target in LINK.findall(CODE.sub("", line)):
            fault = None if re.match(r"[a-z]+:", target) else link_fault(page, target)
            if fault is not None:
                yield number, f"{target}: {fault}"
        for in_backticks, linked, headings in IN_WORDS.findall(line):
            path = page_named(page, in_backticks or linked)
            for heading in re.findall(r'"([^"]+)"', headings):
                if path is not None and heading not in headings_of(path):
                    yield number, f'{path}, "{heading}": there is no such heading'
