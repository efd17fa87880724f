"""Makes wheels of this package: it copies files, so that neither a compiler nor a network is needed.

Into the wheel go the shared object, which FRAMES_LIBRARY names, and the program `wire` for typed messages, which WIRE names. If these aren't
set, they are those that are stored in the clone for this processor. If no program is stored for it, as for aarch64, or this system's glibc is
too early for it, so that pip would refuse the wheel, the library of typed messages goes in. With `--config-settings wire=no` both stay out.
The wheel's tag says the earliest glibc that runs what is in it. A wheel without any of them is for every system, and looks for the library
when it is first used. On Linux it is refused outside of a clone: before 21.3 pip copies this folder, which then has no library beside it. An
editable install (`pip install -e`) points at this folder.
"""
import base64
import hashlib
import os
import platform
import re
import zipfile

NAME, VERSION = "nizkelouz_frames", "0.1.0"
HERE = os.path.dirname(os.path.abspath(__file__))
MACHINES = {"x86_64": 62, "aarch64": 183}  # as ELF numbers them
STORED = os.path.join(HERE, "..", "..", "built", platform.machine())
METADATA = f"""Metadata-Version: 2.1
Name: nizkelouz-frames
Version: {VERSION}
Summary: Messages as frames over a line that may break, by a library whose code is proved
Requires-Python: >=3.8
Classifier: Operating System :: POSIX :: Linux
Classifier: Typing :: Typed
"""


def of_this_machine(variable, *places):
    """The file that a variable names, which has to be there, or the first of these places that is; on Linux alone."""
    named = os.environ.get(variable)
    if named:
        return named
    if platform.system() != "Linux":
        return None
    return next((path for path in places if os.path.exists(path)), None)


def glibc_of(content):
    """The glibc that an ELF file is for, as the number behind `2.`: what it names, 17 at least."""
    return max([17] + [int(it) for it in re.findall(rb"\x00GLIBC_2\.(\d+)(?=[\x00.])", content)])


def refuse_other(path, content, is_library):
    """Raises for a file that no process of this machine could load or run, since the wheel's tag says that they can."""
    machine = MACHINES.get(platform.machine())
    if machine is None or platform.system() != "Linux" or (content[:4] != b"\x7fELF" and not is_library):  # a program may be a script
        return
    if content[:6] != b"\x7fELF\2\1" or int.from_bytes(content[18:20], "little") != machine:
        what = "library" if is_library else "program"
        raise ValueError(f"{path} is no {what} for {platform.machine()}, which the wheel is made for")


def is_for_here(path):
    """Whether a program runs by this system's glibc; also where that isn't known."""
    here = re.fullmatch(r"2\.(\d+).*", platform.libc_ver()[1])
    with open(path, "rb") as file:
        return here is None or glibc_of(file.read()) <= int(here[1])


def files_of_package(with_wire):
    """What goes into a wheel: each file's name there, its bytes, and its mode."""
    folder = os.path.join(HERE, "frames")
    for name in sorted(os.listdir(folder)):
        if name.endswith((".py", ".typed")):
            with open(os.path.join(folder, name), "rb") as file:
                yield f"frames/{name}", file.read(), 0o644
    library = of_this_machine("FRAMES_LIBRARY", os.path.join(folder, "libframes.so"), os.path.join(STORED, "libframes.so"),
                              os.path.join(HERE, "..", "c", "out", "libframes.so"))  # fmt: skip
    if library is None and platform.system() == "Linux" and not os.path.isdir(os.path.dirname(STORED)):
        raise FileNotFoundError(f"no libframes.so is stored beside {HERE}: pip before 21.3 copies this folder out of its clone; upgrade it by "
                                "`pip install --upgrade pip`, or name the library by FRAMES_LIBRARY")  # fmt: skip
    wire = of_this_machine("WIRE", os.path.join(STORED, "wire")) if with_wire else None
    if wire and not os.environ.get("WIRE") and not is_for_here(wire):
        wire = None
    typed = of_this_machine("WIRE_LIBRARY", os.path.join(STORED, "libwire.so")) if with_wire and not wire else None
    for name, path in (("libframes.so", library), ("wire", wire), ("libwire.so", typed)):
        if path:
            with open(path, "rb") as file:
                content = file.read()
            refuse_other(path, content, name.endswith(".so"))
            yield f"frames/{name}", content, 0o755


def tag_of(files):
    """The tag of a wheel: for every system, or from the glibc on that its ELF files name, 2.17 at least."""
    built = [content for _, content, _ in files if content[:4] == b"\x7fELF"]
    if not built:
        return "py3-none-any"
    return f"py3-none-manylinux_2_{max(map(glibc_of, built))}_{platform.machine()}"


def written(folder, files):
    """Writes a wheel of these files, the same bytes each time, and returns its name."""
    tag, info = tag_of(files), f"{NAME}-{VERSION}.dist-info"
    is_pure = "false" if tag != "py3-none-any" else "true"
    wheel = f"Wheel-Version: 1.0\nGenerator: build_frames\nRoot-Is-Purelib: {is_pure}\nTag: {tag}\n"
    files = files + [(f"{info}/METADATA", METADATA.encode(), 0o644), (f"{info}/WHEEL", wheel.encode(), 0o644)]
    name, record = f"{NAME}-{VERSION}-{tag}.whl", ""
    for path, content, _ in files:
        digest = base64.urlsafe_b64encode(hashlib.sha256(content).digest()).rstrip(b"=").decode()
        record += f"{path},sha256={digest},{len(content)}\n"
    files.append((f"{info}/RECORD", f"{record}{info}/RECORD,,\n".encode(), 0o644))
    with zipfile.ZipFile(os.path.join(folder, name), "w", zipfile.ZIP_DEFLATED) as archive:
        for path, content, mode in files:
            entry = zipfile.ZipInfo(path, (1980, 1, 1, 0, 0, 0))
            entry.external_attr = (0o100000 | mode) << 16
            archive.writestr(entry, content, zipfile.ZIP_DEFLATED)
    return name


def build_wheel(wheel_directory, config_settings=None, metadata_directory=None):
    wire = (config_settings or {}).get("wire", "yes")
    if wire not in ("yes", "no"):
        raise ValueError(f"wire is yes or no, not {wire!r}: --config-settings wire=no")
    return written(wheel_directory, list(files_of_package(wire == "yes")))


def build_editable(wheel_directory, config_settings=None, metadata_directory=None):
    return written(wheel_directory, [(f"__editable__.{NAME}.pth", f"{HERE}\n".encode(), 0o644)])


def get_requires_for_build_wheel(config_settings=None):
    return []


get_requires_for_build_editable = get_requires_for_build_sdist = get_requires_for_build_wheel


class UnsupportedOperation(Exception):
    """By this a frontend knows that there is no source distribution."""


def build_sdist(sdist_directory, config_settings=None):
    raise UnsupportedOperation("no source distribution: the library is elsewhere in the clone, and a wheel made without it has none")
