"""Makes the wheel of bidi_proved for pip: the package, and in it the shared object of the library.

The shared object is the one that c/build_library.sh or c/build_shared.sh made, or that BIDI_LIBRARY names. The tag of
the wheel says which machine it is for, and that each Linux since glibc 2.17 has what it needs, if that is so.
The same files make the same bytes: all times in the wheel are that of SOURCE_DATE_EPOCH, or else 1980.
"""
import base64
import hashlib
import os
import pathlib
import re
import time
import zipfile

HERE = pathlib.Path(__file__).resolve().parent
PACKAGE = HERE / "bidi_proved"
# The number in an ELF file, at byte 18, of each machine that the library is built for.
MACHINES = {62: "x86_64", 183: "aarch64"}
SONAME = "libbidi_c.so.1"
SUMMARY = "The Unicode Bidirectional Algorithm (UAX #9), proved, and a judge of its conformance files"
LICENCES = ("LICENSE-MIT", "LICENSE-APACHE", "LICENSE-UNICODE", "NOTICES")
METADATA = """Metadata-Version: 2.1
Name: bidi_proved
Version: {version}
Summary: {summary}
Author: The Dafnyrg authors
License: (MIT OR Apache-2.0) AND Unicode-3.0
{licences}Keywords: unicode,bidi,bidirectional,rtl,uax9
Classifier: Operating System :: POSIX :: Linux
Classifier: Programming Language :: Python :: 3
Classifier: Topic :: Text Processing :: Linguistic
Requires-Python: >=3.8
Description-Content-Type: text/plain

bidi_proved lays out texts by the Unicode Bidirectional Algorithm (UAX #9, rules P1 to L2 and L4), and judges and
reports on its conformance files. The library in it is proved; the module is tested. It runs on Linux. docs/PYTHON.md of
the source is the manual.

    import bidi_proved as bidi
    print(bidi.display("a (\u05d3) b", bidi.Tables.standard()))
"""


def version():
    """Returns the version of the package."""
    return re.search(r'^__version__ = "(.*)"$', (PACKAGE / "__init__.py").read_text(), re.MULTILINE)[1]


def shared_object():
    """Returns the shared object that goes into the wheel."""
    made = HERE.parent / "crates/bidi_c/out" / f"libbidi_c.so.{version()}"
    named = os.environ.get("BIDI_LIBRARY")
    found = pathlib.Path(named or made)
    if not found.exists():
        # pip builds in this folder, and not in the one where it was called.
        build = "build it first, by `rt lib` in crates/bidi_c and c/build_shared.sh"
        raise SystemExit(f"no {found}: " + ("name it in full in BIDI_LIBRARY" if named else build))
    return found


def tag(shared):
    """Returns the tag of a wheel with this shared object: of manylinux2014 if it needs no symbol after GLIBC_2.17."""
    machine = MACHINES.get(int.from_bytes(shared[18:20], "little")) if shared[:4] == b"\x7fELF" else None
    if not machine:
        raise SystemExit("the shared object is for neither of " + ", ".join(MACHINES.values()))
    newest = max((tuple(map(int, it.split(b"."))) for it in re.findall(rb"GLIBC_([0-9.]+)", shared)), default=(0,))
    return f"py3-none-{'manylinux2014' if newest <= (2, 17) else 'linux'}_{machine}"


def contents(info, shared):
    """Returns the wheel's files, by their names in it, without its list of them."""
    names = "".join(f"License-File: {name}\n" for name in licences())
    about = METADATA.format(version=version(), summary=SUMMARY, licences=names)
    made_by = f"Wheel-Version: 1.0\nGenerator: make_wheel\nRoot-Is-Purelib: false\nTag: {tag(shared)}\n"
    sources = [*sorted(PACKAGE.glob("*.py")), PACKAGE / "py.typed"]
    files = {f"bidi_proved/{file.name}": file.read_bytes() for file in sources}
    files[f"bidi_proved/{SONAME}"] = shared
    files[f"{info}/METADATA"] = about.encode()
    files[f"{info}/WHEEL"] = made_by.encode()
    return {**files, **{f"{info}/{name}": text for name, text in licences().items()}}


def licences():
    """Returns the licences, as far as they are there: pip builds in a copy of only this folder."""
    found = ((name, HERE.parent / name) for name in LICENCES)
    return {name: file.read_bytes() for name, file in found if file.exists()}


def written_at():
    """Returns the time of all files in the wheel."""
    return time.gmtime(max(int(os.environ.get("SOURCE_DATE_EPOCH") or 0), 315532800))[:6]


def listed(name, content):
    """Returns the line of a file in the wheel's list."""
    digest = base64.urlsafe_b64encode(hashlib.sha256(content).digest()).rstrip(b"=").decode()
    return f"{name},sha256={digest},{len(content)}\n"


def build_wheel(wheel_directory, config_settings=None, metadata_directory=None):
    """Writes the wheel into this folder, and returns its name (the hook of pip)."""
    info = f"bidi_proved-{version()}.dist-info"
    shared = shared_object().read_bytes()
    files = contents(info, shared)
    record = "".join(listed(name, content) for name, content in files.items()) + f"{info}/RECORD,,\n"
    name = f"bidi_proved-{version()}-{tag(shared)}.whl"
    with zipfile.ZipFile(pathlib.Path(wheel_directory) / name, "w", zipfile.ZIP_DEFLATED) as wheel:
        for path, content in {**files, f"{info}/RECORD": record.encode()}.items():
            entry = zipfile.ZipInfo(path, written_at())
            entry.compress_type, entry.external_attr = zipfile.ZIP_DEFLATED, 0o100644 << 16
            wheel.writestr(entry, content)
    return name


def build_sdist(sdist_directory, config_settings=None):
    """Fails: there is no source package, since the wheel contains the built library."""
    raise SystemExit("bidi_proved has no source distribution: build the wheel in the repository")
