"""backend.py DIRECTORY: makes the wheel there, and prints its name.

What pip asks of a build backend (PEP 517), with nothing but Python itself: a
wheel is a zip of the package, the shared object, and three files about it.
"""
import base64
import hashlib
import os
import re
import sys
import sysconfig
import zipfile

HERE = os.path.dirname(os.path.abspath(__file__))
PACKAGE = os.path.join(HERE, "bhtf")
SHARED = "libbhtf.so.1"


def version():
    with open(os.path.join(PACKAGE, "__init__.py"), encoding="utf-8") as f:
        return re.search(r'^__version__ = "(.*)"', f.read(), re.M).group(1)


def library():
    """The shared object that goes into the wheel."""
    path = os.environ.get("BHTF_LIBRARY") or \
        os.path.join(HERE, "..", "build", SHARED)
    if not os.path.exists(path):
        raise SystemExit("%s is not there: run make in host, or say "
                         "BHTF_LIBRARY=path" % path)
    return path


def tag():
    """Any Python 3 of this system: the package calls the library by ctypes."""
    return "py3-none-" + re.sub("[-.]", "_", sysconfig.get_platform())


def about():
    """The files about the package."""
    return {
        "METADATA": "Metadata-Version: 2.1\nName: bhtf\nVersion: %s\n"
                    "Summary: Control point files: named points with texts in "
                    "one image\nRequires-Python: >=3.8\n" % version(),
        "WHEEL": "Wheel-Version: 1.0\nGenerator: bhtf\n"
                 "Root-Is-Purelib: false\nTag: %s\n" % tag(),
        "top_level.txt": "bhtf\n",
    }


def contents():
    """Names and bytes of all files of the wheel but the list of them."""
    for name in sorted(os.listdir(PACKAGE)):
        if name.endswith(".py") or name == "py.typed":
            with open(os.path.join(PACKAGE, name), "rb") as f:
                yield "bhtf/" + name, f.read()
    with open(library(), "rb") as f:
        yield "bhtf/" + SHARED, f.read()
    for name, words in about().items():
        yield "bhtf-%s.dist-info/%s" % (version(), name), words.encode()


def put(archive, name, data):
    entry = zipfile.ZipInfo(name, (1980, 1, 1, 0, 0, 0))  # equal when remade
    entry.external_attr = 0o644 << 16
    archive.writestr(entry, data, zipfile.ZIP_DEFLATED)


def build_wheel(wheel_directory, config_settings=None,
                metadata_directory=None):
    name = "bhtf-%s-%s.whl" % (version(), tag())
    listed = "bhtf-%s.dist-info/RECORD" % version()
    lines = []
    with zipfile.ZipFile(os.path.join(wheel_directory, name), "w") as archive:
        for path, data in contents():
            digest = base64.urlsafe_b64encode(hashlib.sha256(data).digest())
            lines.append("%s,sha256=%s,%d" % (
                path, digest.rstrip(b"=").decode(), len(data)))
            put(archive, path, data)
        put(archive, listed, ("\n".join(lines) + "\n%s,,\n" % listed).encode())
    return name


if __name__ == "__main__":
    if len(sys.argv) != 2:
        raise SystemExit(__doc__)
    print(build_wheel(sys.argv[1]))
