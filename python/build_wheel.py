"""build_wheel: the Python package of panjerov, with its library inside, for pip and for tools/install.

pip calls build_wheel, as pyproject.toml says, so that `pip install ./python` needs neither setuptools nor a network: a wheel is an archive
of the files and of three that tell about them. It does need crates/reducer/out/libreducer.a, and gcc to link it. It writes nothing into the
repository.

    python3 python/build_wheel.py FOLDER    # the package alone, as FOLDER/panjerov
"""
import base64
import hashlib
import pathlib
import re
import subprocess
import sys
import sysconfig
import tempfile
import zipfile

MODULE = pathlib.Path(__file__).resolve().with_name("panjerov.py")
ARCHIVE = MODULE.parent.parent / "crates" / "reducer" / "out" / "libreducer.a"
SUMMARY = "The proved inversion reducer for majority and XOR graphs"


def library():
    """The library as a shared object."""
    if not ARCHIVE.exists():
        raise SystemExit(f"there is no {ARCHIVE}: run `rt lib` in the repository's crates/reducer first")
    with tempfile.TemporaryDirectory() as folder:
        shared = pathlib.Path(folder) / "libreducer.so"
        words = ["gcc", "-shared", "-o", str(shared), "-Wl,--whole-archive", str(ARCHIVE), "-Wl,--no-whole-archive"]
        try:
            subprocess.run(words, check=True)
        except FileNotFoundError:
            raise SystemExit("gcc is needed to link the library, and is not there") from None
        return shared.read_bytes()


def package():
    """The files of the package, by name."""
    return {"__init__.py": MODULE.read_bytes(), "py.typed": b"", "libreducer.so": library()}


def about(version, tag):
    """The files beside the package that tell about it, but for the list of all."""
    metadata = f"Metadata-Version: 2.1\nName: panjerov\nVersion: {version}\nSummary: {SUMMARY}\nRequires-Python: >=3.8\n"
    wheel = f"Wheel-Version: 1.0\nGenerator: panjerov {version}\nRoot-Is-Purelib: false\nTag: {tag}\n"
    return {"METADATA": metadata.encode(), "WHEEL": wheel.encode()}


def line(name, file):
    """A file's line in the list of all."""
    digest = base64.urlsafe_b64encode(hashlib.sha256(file).digest()).rstrip(b"=").decode()
    return f"{name},sha256={digest},{len(file)}\n"


def build_wheel(wheel_directory, config_settings=None, metadata_directory=None):
    """Writes the wheel, and answers its name."""
    version = re.search(r'^__version__ = "(.*)"$', MODULE.read_text(encoding="utf-8"), re.M)[1]
    tag = f"py3-none-{sysconfig.get_platform().replace('-', '_').replace('.', '_')}"
    told = f"panjerov-{version}.dist-info"
    files = {f"panjerov/{name}": file for name, file in package().items()}
    files.update({f"{told}/{name}": file for name, file in about(version, tag).items()})
    record = "".join(line(name, file) for name, file in files.items()) + f"{told}/RECORD,,\n"
    name = f"panjerov-{version}-{tag}.whl"
    with zipfile.ZipFile(pathlib.Path(wheel_directory) / name, "w", zipfile.ZIP_DEFLATED) as archive:
        for place, file in {**files, f"{told}/RECORD": record.encode()}.items():
            archive.writestr(place, file)
    return name


def build_sdist(sdist_directory, config_settings=None):
    raise SystemExit("the package is made from the repository, where the library is proved; there is none of its source alone")


def main():
    if len(sys.argv) != 2:
        sys.exit("usage: python3 python/build_wheel.py FOLDER")
    folder = pathlib.Path(sys.argv[1]) / "panjerov"
    folder.mkdir(parents=True, exist_ok=True)
    for name, file in package().items():
        (folder / name).unlink(missing_ok=True)
        (folder / name).write_bytes(file)


if __name__ == "__main__":
    main()
