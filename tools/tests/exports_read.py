"""The files for statistics sites, as tests read them."""
import gzip
from pathlib import Path
from xml.etree import ElementTree


def read(folder: Path, name: str) -> list[dict[str, str]]:
    """Returns the elements of a file, each with its members."""
    root = ElementTree.fromstring(gzip.decompress((folder / name).read_bytes()))
    return [{member.tag: member.text or "" for member in one} for one in root]
