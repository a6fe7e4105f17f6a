"""Builds the package `aoc` for pip, with nothing but Python itself, so that no network is needed: `pip install FOLDER`.

The library is put into the package: lib/libaoc.so of AOC_PREFIX, a folder that tools/install filled or a release that was
unpacked; without AOC_PREFIX that of the prefix in which this folder lies (PREFIX/share/aoc/python). The package has its version."""
import base64
import ctypes
import hashlib
import os
import sysconfig
import zipfile

HERE = os.path.dirname(os.path.abspath(__file__))


def library():
    prefix = os.environ.get("AOC_PREFIX") or os.path.dirname(os.path.dirname(os.path.dirname(HERE)))
    path = os.path.join(prefix, "lib", "libaoc.so")
    if not os.path.exists(path):
        raise SystemExit(f"aoc: no {path}: AOC_PREFIX has to name a folder that tools/install filled, or a release that was unpacked")
    return path


def version_of(path):
    number = ctypes.CDLL(path).aoc_version()
    return f"{number // 10000}.{number // 100 % 100}.{number % 100}"


def metadata(version):
    return (f"Metadata-Version: 2.1\nName: aoc\nVersion: {version}\nRequires-Python: >=3.8\n"
            "Summary: Advice of Charge (ETS 300 182-1): a proved client library\n")


def build_wheel(wheel_directory, config_settings=None, metadata_directory=None):
    path = library()
    version = version_of(path)
    tag = f"py3-none-{sysconfig.get_platform().replace('-', '_').replace('.', '_')}"
    files = {f"aoc/{name}": os.path.join(HERE, "aoc", name) for name in sorted(os.listdir(os.path.join(HERE, "aoc"))) if name.endswith(".py")}
    files["aoc/libaoc.so"] = path
    contents = {}
    for name, source in files.items():
        with open(source, "rb") as file:
            contents[name] = file.read()
    info = f"aoc-{version}.dist-info"
    contents[f"{info}/METADATA"] = metadata(version).encode()
    contents[f"{info}/WHEEL"] = f"Wheel-Version: 1.0\nGenerator: aoc\nRoot-Is-Purelib: false\nTag: {tag}\n".encode()
    record = "".join(f"{name},sha256={base64.urlsafe_b64encode(hashlib.sha256(data).digest()).rstrip(b'=').decode()},{len(data)}\n"
                     for name, data in contents.items())
    contents[f"{info}/RECORD"] = f"{record}{info}/RECORD,,\n".encode()
    wheel = f"aoc-{version}-{tag}.whl"
    with zipfile.ZipFile(os.path.join(wheel_directory, wheel), "w", zipfile.ZIP_DEFLATED) as archive:
        for name, data in contents.items():
            archive.writestr(zipfile.ZipInfo(name), data, zipfile.ZIP_DEFLATED)
    return wheel


def build_sdist(sdist_directory, config_settings=None):
    raise SystemExit("aoc: the sources of this package are the folder itself; the library is not built from them")
