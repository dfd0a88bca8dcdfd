"""What pip calls to build the package (PEP 517): a wheel is an archive of the package's files and four more that describe it."""
import base64
import hashlib
import os
import re
import tarfile
import zipfile

TOP = os.path.dirname(os.path.dirname(os.path.realpath(__file__)))
ABOUT = """Metadata-Version: 2.1
Name: minorder
Version: {version}
Summary: Exact minimum variable orders of binary decision diagrams, proved
Requires-Python: >=3.9
"""


# what lies beside a module where the package is installed, and where it is else: in the repository, or the library in a prefix
TABLES = {f"minorder/benchmarks/{name}": [f"../../optima/{name}"] for name in ("optima.csv", "league.csv", "sizes.csv.gz")}
LIBRARY = "minorder/libminorder.so.1"
ELSEWHERE = {**TABLES, LIBRARY: [f"{above}/lib/libminorder.so.1" for above in ("../..", "../../..")]}


def _place(name):
    places = [os.path.join(TOP, it) for it in (name, *ELSEWHERE.get(name, ()))]
    return next((place for place in places if os.path.exists(place)), places[0])


def _read(name):
    with open(_place(name), "rb") as file:
        return file.read()


def _version():
    return re.search(rb'^__version__ = "(.*)"$', _read("minorder/__init__.py"), re.M).group(1).decode()


def _package():
    """The package's files, and the shared library if there is one."""
    folders = ("minorder", "minorder/benchmarks")
    names = [f"{folder}/{name}" for folder in folders for name in sorted(os.listdir(os.path.join(TOP, folder)))]
    own = [name for name in names if name.endswith((".py", "py.typed"))]
    return [*own, *TABLES, *([LIBRARY] if os.path.exists(_place(LIBRARY)) else [])]


def _commands():
    """The scripts of the commands that pyproject.toml has below [project.scripts], by name."""
    listed = _read("pyproject.toml").decode().partition("[project.scripts]\n")[2].partition("[")[0]
    # pip puts its interpreter into the first line
    _, script = _read("backend/command.py").split(b"\n", 1)
    found = re.findall('^(.+) = "(.+):main"$', listed, re.M)
    return {name: b"#!python\n" + script.replace(b"MODULE", module.encode()) for name, module in found}


def build_wheel(wheel_directory, config_settings=None, metadata_directory=None):
    """With the library it is for the platform that the settings name, else for this machine's system."""
    version, files = _version(), {name: _read(name) for name in _package()}
    platform = (config_settings or {}).get("platform", "linux_x86_64")
    tag = f"py3-none-{platform if LIBRARY in files else 'any'}"
    about = f"minorder-{version}.dist-info"
    files[f"{about}/METADATA"] = ABOUT.format(version=version).encode()
    pure = "true" if tag.endswith("any") else "false"
    files[f"{about}/WHEEL"] = f"Wheel-Version: 1.0\nGenerator: wheels.py\nRoot-Is-Purelib: {pure}\nTag: {tag}\n".encode()
    files.update({f"minorder-{version}.data/scripts/{name}": script for name, script in _commands().items()})
    record = ""
    for name, content in files.items():
        digest = base64.urlsafe_b64encode(hashlib.sha256(content).digest()).rstrip(b"=").decode()
        record += f"{name},sha256={digest},{len(content)}\n"
    files[f"{about}/RECORD"] = (record + f"{about}/RECORD,,\n").encode()
    made = f"minorder-{version}-{tag}.whl"
    with zipfile.ZipFile(os.path.join(wheel_directory, made), "w", zipfile.ZIP_DEFLATED) as archive:
        for name, content in files.items():
            entry = zipfile.ZipInfo(name)
            # pip makes a script that may be run one that may be run
            entry.external_attr = (0o100755 if "/scripts/" in name else 0o100644) << 16
            archive.writestr(entry, content, zipfile.ZIP_DEFLATED)
    return made


def build_sdist(sdist_directory, config_settings=None):
    made = f"minorder-{_version()}"
    with tarfile.open(os.path.join(sdist_directory, f"{made}.tar.gz"), "w:gz") as archive:
        for name in ["pyproject.toml", "backend/command.py", "backend/wheels.py", *_package()]:
            archive.add(_place(name), f"{made}/{name}")
        about = os.path.join(sdist_directory, "PKG-INFO")
        with open(about, "w") as file:
            file.write(ABOUT.format(version=_version()))
        archive.add(about, f"{made}/PKG-INFO")
        os.remove(about)
    return made + ".tar.gz"
