"""nginx with the files that bsched-project writes, as tests run it."""
import re
import shutil
import subprocess
import time
from collections.abc import Iterator
from contextlib import contextmanager
from pathlib import Path

from project_machine import Machine
from served import listens

NGINX = shutil.which("nginx", path="/usr/sbin:/usr/bin")
URL = "https://sums.example/project/"


def written(machine: Machine, name: str, url: str) -> Path:
    """Makes a project with its files for nginx, and returns their folder."""
    assert machine.make("--url", url, name).returncode == 0
    completed = machine.make("nginx", name)
    assert (completed.returncode, completed.stderr) == (0, "")
    return machine.folder / "projects-nginx" / name


def bridge_port(machine: Machine, name: str) -> int:
    """Returns the port of a project's bridge: a machine may have other programs at the first ports."""
    lines = (machine.projects / name / "environment").read_text().splitlines()
    return next(int(line.removeprefix("BRIDGE_PORT=")) for line in lines if line.startswith("BRIDGE_PORT="))


@contextmanager
def served(folder: Path, files: list[Path], ports: dict[int, int]) -> Iterator[None]:
    """Runs nginx with the files of some projects. A port in them is replaced by another one."""
    for name in ("conf.d", "snippets", "live", "log", "live/sums.example", "live/others.example"):
        (folder / name).mkdir()
    for host in ("sums.example", "others.example"):
        where = folder / "live" / host
        command = ["openssl", "req", "-x509", "-newkey", "rsa:2048", "-nodes", "-subj", f"/CN={host}"]
        command += ["-keyout", str(where / "privkey.pem"), "-out", str(where / "fullchain.pem")]
        subprocess.run(command, check=True, capture_output=True, timeout=600)
    for number, path in enumerate(files):
        text = re.sub(r" *listen \[::\].*\n", "", path.read_text()).replace("/etc/letsencrypt", str(folder))
        text = text.replace("/var/lib/nginx", str(folder))
        text = text.replace(" min_free=2g ", " ")  # the disk of a test may be smaller
        for old, new in ports.items():
            text = re.sub(rf"(listen |127\.0\.0\.1:){old}\b", rf"\g<1>{new}", text)
        project = path.parent.name
        place = {"limits.conf": "conf.d/limits.conf", "site.conf": f"conf.d/{number}.conf"}.get(path.name)
        (folder / (place or f"snippets/bsched-{project}.conf")).write_text(text)
    main = f"daemon off; user root; pid {folder}/pid; error_log {folder}/log/error; events {{}}\n"
    temporary = "".join(
        f"{kind}_temp_path {folder}/log/{kind};\n"
        for kind in ("client_body", "proxy", "fastcgi", "uwsgi", "scgi")
    )
    main += f"http {{\naccess_log {folder}/log/access;\n{temporary}include conf.d/*.conf;\n}}\n"
    (folder / "nginx.conf").write_text(main)
    process = subprocess.Popen([NGINX or "", "-p", str(folder), "-c", str(folder / "nginx.conf")])
    ends = time.monotonic() + 60
    try:
        while not (listens(ports[80]) and listens(ports[443])):
            assert process.poll() is None, "nginx refuses the files"
            assert time.monotonic() < ends, "nginx does not start"
            time.sleep(0.05)
        yield
    finally:
        process.terminate()
        process.wait(60)
