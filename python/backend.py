"""Makes the wheel for `pip install .`: the modules of p11/ and the library for C, which they load. It takes no package from an
index. The library is the installed one, or what the clone's `build` finds or makes: a proved one, or with a C compiler alone the C form
(p11/library.py). P11_PLATFORM names the machine that the library P11_LIBRARY is for, if that is another (linux_aarch64)."""
import base64
import hashlib
import os
import re
import sysconfig
import zipfile

from p11 import library

HERE = os.path.dirname(os.path.abspath(__file__))


def project(field):
    """A text of pyproject.toml."""
    with open(os.path.join(HERE, "pyproject.toml"), encoding="utf-8") as file:
        return re.search(f'^{field} = "(.*)"$', file.read(), re.MULTILINE)[1]


def platform(held):
    """Where the library runs that has these bytes: on each Linux whose glibc has the symbols that it names."""
    here = sysconfig.get_platform().replace("-", "_").replace(".", "_")
    versions = [tuple(map(int, found)) for found in re.findall(rb"\0GLIBC_(\d+)\.(\d+)", held)]
    if not here.startswith("linux_") or not versions:
        return here
    return "manylinux_{}_{}_".format(*max(versions)) + here.removeprefix("linux_")


def wheel_files(version, tag, held):
    """The names in the wheel, each with its bytes; HELD is the library."""
    files = {"p11/libpdp1140.so": held}
    for name in sorted(os.listdir(os.path.join(HERE, "p11"))):
        if name.endswith(".py") or name == "py.typed":
            with open(os.path.join(HERE, "p11", name), "rb") as file:
                files["p11/" + name] = file.read()
    info = f"p11-{version}.dist-info"
    files[f"{info}/METADATA"] = (f"Metadata-Version: 2.1\nName: p11\nVersion: {version}\nSummary: {project('description')}\n"
                                 f"Requires-Python: {project('requires-python')}\n").encode()
    files[f"{info}/WHEEL"] = f"Wheel-Version: 1.0\nGenerator: p11\nRoot-Is-Purelib: false\nTag: {tag}\n".encode()
    rows = [f"{name},sha256={base64.urlsafe_b64encode(hashlib.sha256(held).digest()).decode().rstrip('=')},{len(held)}\n"
            for name, held in files.items()]
    files[f"{info}/RECORD"] = "".join([*rows, f"{info}/RECORD,,\n"]).encode()
    return files


def build_wheel(wheel_directory, config_settings=None, metadata_directory=None):
    """The hook that pip calls: the name of the wheel, which is made in that folder."""
    with open(library.find(), "rb") as file:
        held = file.read()
    # a library for another machine can't be asked
    version = re.search(rb"p11 (\d+\.\d+\.\d+); ", held)[1].decode()
    tag = "py3-none-" + (os.environ.get("P11_PLATFORM") or platform(held))
    name = f"p11-{version}-{tag}.whl"
    with zipfile.ZipFile(os.path.join(wheel_directory, name), "w", zipfile.ZIP_DEFLATED) as wheel:
        for place, held in wheel_files(version, tag, held).items():
            wheel.writestr(zipfile.ZipInfo(place, (1980, 1, 1, 0, 0, 0)), held, zipfile.ZIP_DEFLATED)
    return name
