"""XML as lines has the bytes that ElementTree writes, with any texts in it."""
import xml.etree.ElementTree as ElementTree
from typing import Any

from hypothesis import given
from hypothesis import strategies as st

from bsched_bridge.requests.xml_lines import XmlLines
from bsched_files.texts import xml_text

NAMES = st.sampled_from(["app", "file_info", "url"])
# the elements within an element: each has a text, a number, or elements
NODES: st.SearchStrategy[list[tuple[str, Any]]] = st.recursive(
    st.lists(st.tuples(NAMES, st.text(max_size=8) | st.integers()), min_size=1, max_size=3),
    lambda nodes: st.lists(st.tuples(NAMES, nodes | st.text(max_size=8)), min_size=1, max_size=3),
    max_leaves=8,
)


def write(lines: XmlLines, nodes: list[tuple[str, Any]]) -> None:
    """Writes elements as lines."""
    for name, value in nodes:
        if isinstance(value, list):
            with lines.inside(name):
                write(lines, value)
        else:
            lines.add(name, value)


def add(element: ElementTree.Element, nodes: list[tuple[str, Any]]) -> None:
    """Adds the same elements to one of ElementTree."""
    for name, value in nodes:
        child = ElementTree.SubElement(element, name)
        if isinstance(value, list):
            add(child, value)
        else:
            child.text = xml_text(str(value))


def plainly_written(root: ElementTree.Element) -> bytes:
    """Returns the bytes that ElementTree writes."""
    ElementTree.indent(root, "    ")
    return f"{ElementTree.tostring(root, 'unicode', short_empty_elements=False)}\n".encode()


@given(NODES)
def test_the_bytes_are_those_of_elementtree(nodes: list[tuple[str, Any]]) -> None:
    lines, root = XmlLines("reply"), ElementTree.Element("reply")
    write(lines, nodes)
    add(root, nodes)
    assert lines.written() == plainly_written(root)


@given(st.text(max_size=20))
def test_a_message_has_a_priority(text: str) -> None:
    lines, root = XmlLines("reply"), ElementTree.Element("reply")
    lines.add_message(text, "low")
    ElementTree.SubElement(root, "message", priority="low").text = xml_text(text)
    assert lines.written() == plainly_written(root)


def test_lines_of_another_element_are_added() -> None:
    inner, outer = XmlLines("workunit", level=2), XmlLines("reply")
    inner.add("name", "u1")
    outer.add_lines(inner.inner_lines())
    assert outer.written() == b"<reply>\n        <name>u1</name>\n</reply>\n"
