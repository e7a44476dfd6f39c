"""The layers of a package: its subpackages, in the order in which its head lists them.

A head lists a name at the beginning of a line, and says after two blanks or more what it is for.
"""
import ast
import re
from collections.abc import Iterator
from pathlib import Path


def listed(folder: Path) -> list[str]:
    """Returns the modules and subpackages that the head of a package lists, in its order."""
    head = ast.get_docstring(ast.parse((folder / "__init__.py").read_text())) or ""
    lines = re.findall(r"^([a-z_]+(?:, [a-z_]+)*)  +\S", head, re.MULTILINE)
    return [name for line in lines for name in line.split(", ")]


def existing(folder: Path) -> set[str]:
    """Returns the modules and subpackages that a package has."""
    return {path.stem for path in folder.glob("[a-z]*.py")} | {
        path.parent.name for path in folder.glob("*/__init__.py")
    }


def imported(package: Path, path: Path) -> Iterator[str]:
    """Yields what a module imports of its own package: the names of subpackages, and of modules in none."""
    at = list(path.relative_to(package).parent.parts)
    for node in ast.walk(ast.parse(path.read_text())):
        if isinstance(node, ast.ImportFrom):
            names = node.module.split(".") if node.module else []
            if node.level:
                names = at[: len(at) + 1 - node.level] + names
            elif names.pop(0) != package.name:
                continue
            yield from names[:1] or (name.name for name in node.names)


def faulty_heads(package: Path) -> list[str]:
    """Returns the packages whose heads leave a module out, or list one twice or in vain."""
    folders = [package, *(path.parent for path in package.glob("*/__init__.py"))]
    return [folder.name for folder in folders if sorted(existing(folder)) != sorted(listed(folder))]


def upward_imports(package: Path) -> list[str]:
    """Returns the imports in a subpackage of anything but itself and those that the head lists below it."""
    layers = [name for name in listed(package) if (package / name).is_dir()]
    return [
        f"{layer}/{path.name} imports {name}"
        for place, layer in enumerate(layers)
        for path in sorted((package / layer).glob("*.py"))
        for name in imported(package, path)
        if name not in layers[place:]
    ]
