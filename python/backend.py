"""Builds the package for pip with the standard library alone, so that `pip install ./python` needs no network. A wheel takes the program and the
machine's library along, where the clone has made them, and is then for this kind of machine alone."""
import base64
import hashlib
import os
import re
import sysconfig
import zipfile
from pathlib import Path

HERE = Path(__file__).resolve().parent
OUT = HERE.parent / "out"
# What is taken along: the first of these that is there.
NATIVE = (OUT / "libhengomaru.so",), (OUT / "durable", HERE.parent / "crates/durable/out/durable")


def told(name):
    return re.search(rf'(?m)^{name} = "(.*)"$', (HERE / "pyproject.toml").read_text())[1]


def section(name):
    """The lines of a section, each a name and what stands behind it."""
    found = re.search(rf"(?ms)^\[{re.escape(name)}\]\n(.*?)(?:\n\[|\Z)", (HERE / "pyproject.toml").read_text())
    return re.findall(r"(?m)^(\w+) = (.*)$", found[1])


def metadata():
    about = [("Metadata-Version", "2.1"), ("Name", told("name")), ("Version", told("version")), ("Summary", told("description")), ("Requires-Python", told("requires-python"))]
    for extra, wanted in section("project.optional-dependencies"):
        about += [("Provides-Extra", extra), *(("Requires-Dist", f"{it}; extra == '{extra}'") for it in re.findall(r'"(.*?)"', wanted))]
    return "".join(f"{name}: {it}\n" for name, it in about)


def entry_points():
    of = lambda group, name: f"[{group}]\n" + "".join(f"{a} = {b[1:-1]}\n" for a, b in section(name))
    return of("console_scripts", "project.scripts") + of("pytest11", "project.entry-points.pytest11")


def line_of(path, content):
    digest = base64.urlsafe_b64encode(hashlib.sha256(content).digest()).rstrip(b"=").decode()
    return f"{path},sha256={digest},{len(content)}\n"


def native():
    found = [next((it for it in places if os.access(it, os.R_OK)), None) for places in NATIVE]
    return {f"hengomaru/native/{it.name}": it.read_bytes() for it in found if it}


def wheel(folder, files):
    """Writes a wheel of these files, each its content by its path, and returns its name."""
    name, is_native = f"{told('name')}-{told('version')}", any(it.startswith("hengomaru/native/") for it in files)
    tag = "py3-none-" + (re.sub(r"\W", "_", sysconfig.get_platform()) if is_native else "any")
    about = f"Wheel-Version: 1.0\nGenerator: hengomaru\nRoot-Is-Purelib: {str(not is_native).lower()}\nTag: {tag}\n"
    info = f"{name}.dist-info"
    files = {**files, f"{info}/METADATA": metadata().encode(), f"{info}/entry_points.txt": entry_points().encode(), f"{info}/WHEEL": about.encode()}
    record = "".join(line_of(path, content) for path, content in files.items()) + f"{info}/RECORD,,\n"
    with zipfile.ZipFile(Path(folder, f"{name}-{tag}.whl"), "w", zipfile.ZIP_DEFLATED) as made:
        for path, content in {**files, f"{info}/RECORD": record.encode()}.items():
            it = zipfile.ZipInfo(path)
            it.compress_type = zipfile.ZIP_DEFLATED
            it.external_attr = (0o100755 if path.startswith("hengomaru/native/") else 0o100644) << 16
            made.writestr(it, content)
    return f"{name}-{tag}.whl"


def build_wheel(wheel_directory, config_settings=None, metadata_directory=None):
    here = HERE / "hengomaru"
    found = sorted([*here.glob("*.py"), here / "py.typed", *here.glob("page/*")])
    return wheel(wheel_directory, {**{f"hengomaru/{it.relative_to(here)}": it.read_bytes() for it in found}, **native()})


def build_editable(wheel_directory, config_settings=None, metadata_directory=None):
    return wheel(wheel_directory, {"hengomaru.pth": f"{HERE}\n".encode()})
