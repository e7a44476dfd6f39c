"""What a trial needs from Debian."""
import shutil
import subprocess
import sys

MODULES = {
    "waitress": "python3-waitress",
    "defusedxml": "python3-defusedxml",
    "cryptography": "python3-cryptography",
    "werkzeug": "python3-werkzeug",
    "jinja2": "python3-jinja2",
    "tomlkit": "python3-tomlkit",
}


def missing(needed: dict[str, str], modules: dict[str, str] = MODULES) -> list[str]:
    """Returns the Debian packages that are missing, of those with commands and modules of Python."""
    lacks = {package for word, package in needed.items() if shutil.which(word) is None}
    for module, package in modules.items():
        if subprocess.run(
            [sys.executable, "-c", f"import {module}"], capture_output=True, timeout=60
        ).returncode:
            lacks.add(package)
    return sorted(lacks)
