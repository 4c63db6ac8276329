"""A build backend (PEP 517) of the standard library alone: packs the package and the shared library into a wheel."""
import base64
import hashlib
import importlib.machinery
import importlib.util
import os
import zipfile

HERE = os.path.dirname(os.path.abspath(__file__))
LIBRARY = os.path.normpath(os.path.join(HERE, "../../target/python/libpozsmeteg.so"))
STATIC = os.path.normpath(os.path.join(HERE, "../../target/staticlib/libexports.a"))
TAG = "py3-none-linux_x86_64"
STAMP = (1980, 1, 1, 0, 0, 0)  # the same input gives the same wheel


class UnsupportedOperation(Exception):
    """There is no source distribution: the shared library is made from the repository."""


def loaded(name, path):
    """A Python file as a module, whatever its name is."""
    loader = importlib.machinery.SourceFileLoader(name, path)
    module = importlib.util.module_from_spec(importlib.util.spec_from_loader(name, loader))
    loader.exec_module(module)
    return module


def version():
    return loaded("version", os.path.join(HERE, "pozsmeteg/version.py")).VERSION


def library():
    """The shared library, made by `build` where it is not there yet or the checkout's static library is newer."""
    there = os.path.isfile(LIBRARY) and not (os.path.isfile(STATIC) and os.path.getmtime(STATIC) > os.path.getmtime(LIBRARY))
    if there:
        return LIBRARY
    maker = loaded("build_library", os.path.join(HERE, "build"))
    try:
        return maker.build()
    except maker.Missing as fault:  # one sentence in what pip prints, and no trace
        raise SystemExit(f"pozsmeteg: {fault}") from None


def metadata():
    """The files of the wheel's dist-info folder, but for its RECORD."""
    head = f"Metadata-Version: 2.1\nName: pozsmeteg\nVersion: {version()}\n"
    about = "Summary: Range-acceleration residuals of a satellite pair, over a proved engine\nLicense: MIT\nRequires-Python: >=3.8\n"
    with open(os.path.join(HERE, "README.md"), encoding="utf-8") as file:
        text = "Description-Content-Type: text/markdown\n\n" + file.read()
    return {
        "METADATA": head + about + text,
        "WHEEL": f"Wheel-Version: 1.0\nGenerator: pozsmeteg\nRoot-Is-Purelib: false\nTag: {TAG}\n",
        "entry_points.txt": "[console_scripts]\ndesk = pozsmeteg.desk.main:main\n",
    }


def package():
    """Pairs of a name in the wheel and the file's bytes: all of the package but what Python made itself, and the licence."""
    for folder, folders, files in os.walk(os.path.join(HERE, "pozsmeteg")):
        folders[:] = sorted(f for f in folders if f != "__pycache__")
        for file in sorted(f for f in files if not f.endswith((".pyc", ".so"))):
            path = os.path.join(folder, file)
            yield os.path.relpath(path, HERE), read(path)
    yield "pozsmeteg/libpozsmeteg.so", read(library())


def read(path):
    with open(path, "rb") as file:
        return file.read()


def record_line(name, data):
    digest = base64.urlsafe_b64encode(hashlib.sha256(data).digest()).rstrip(b"=").decode()
    return f"{name},sha256={digest},{len(data)}\n"


def build_wheel(wheel_directory, config_settings=None, metadata_directory=None):
    """Writes the wheel and answers its name."""
    folder = f"pozsmeteg-{version()}.dist-info"
    files = [*package(), *((f"{folder}/{name}", text.encode()) for name, text in metadata().items())]
    files.append((f"{folder}/LICENSE", read(os.path.join(HERE, "../../LICENSE"))))
    record = "".join(record_line(*file) for file in files) + f"{folder}/RECORD,,\n"
    name = f"pozsmeteg-{version()}-{TAG}.whl"
    with zipfile.ZipFile(os.path.join(wheel_directory, name), "w", zipfile.ZIP_DEFLATED) as wheel:
        for path, data in [*files, (f"{folder}/RECORD", record.encode())]:
            entry = zipfile.ZipInfo(path, STAMP)
            entry.compress_type, entry.external_attr = zipfile.ZIP_DEFLATED, 0o100644 << 16
            wheel.writestr(entry, data)
    return name


def build_sdist(sdist_directory, config_settings=None):
    raise UnsupportedOperation("there is no source distribution: install from a checkout, `pip install bindings/python`")
