"""Builds the wheel, with the shared library in it, by what Python itself has: no package is needed for it.

    pip wheel --no-deps hosts/python        or        python3 hosts/python/build_sif.py FOLDER
"""

from __future__ import annotations

import base64
import hashlib
import subprocess
import sys
import sysconfig
import zipfile
from pathlib import Path
from typing import Any, Optional

HERE = Path(__file__).resolve().parent
ROOT = HERE.parents[1]
LIBRARY = ROOT / "target" / "lib" / "libsif_c.so.0"
NAME, VERSION = "sif", "0.1.0"
METADATA = f"""Metadata-Version: 2.1
Name: {NAME}
Version: {VERSION}
Summary: Reads sif scripts by a proved library: tokens, tree, errors, canonical text
Requires-Python: >=3.9
"""


def build_wheel(wheel_directory: str, config_settings: Any = None, metadata_directory: Optional[str] = None) -> str:
    """Writes the wheel to a folder, and answers its name."""
    platform = sysconfig.get_platform().replace("-", "_").replace(".", "_")
    tag = f"py3-none-{platform}"
    name = f"{NAME}-{VERSION}-{tag}.whl"
    info = f"{NAME}-{VERSION}.dist-info"
    wheel = f"Wheel-Version: 1.0\nGenerator: build_sif\nRoot-Is-Purelib: false\nTag: {tag}\n"
    files = {f"sif/{path.name}": path.read_bytes() for path in sorted((HERE / "sif").glob("*.py"))}
    files["sif/py.typed"] = b""
    files[f"sif/{LIBRARY.name}"] = _library()
    files[f"{info}/METADATA"] = METADATA.encode()
    files[f"{info}/WHEEL"] = wheel.encode()
    record = "".join(f"{path},sha256={_digest(data)},{len(data)}\n" for path, data in files.items())
    files[f"{info}/RECORD"] = f"{record}{info}/RECORD,,\n".encode()
    with zipfile.ZipFile(Path(wheel_directory) / name, "w", zipfile.ZIP_DEFLATED) as archive:
        for path, data in files.items():
            entry = zipfile.ZipInfo(path)
            entry.external_attr = (0o755 if path.endswith(LIBRARY.name) else 0o644) << 16
            entry.compress_type = zipfile.ZIP_DEFLATED
            archive.writestr(entry, data)
    return name


def _library() -> bytes:
    """The shared library, which `make lib` builds where it is missing."""
    if not LIBRARY.exists():
        subprocess.run(["make", "lib"], cwd=ROOT, check=True)
    return LIBRARY.read_bytes()


def _digest(data: bytes) -> str:
    return base64.urlsafe_b64encode(hashlib.sha256(data).digest()).rstrip(b"=").decode()


def build_sdist(sdist_directory: str, config_settings: Any = None) -> str:
    raise NotImplementedError("the package is built from the repository, which has the library's source")


if __name__ == "__main__":
    print(build_wheel(sys.argv[1] if len(sys.argv) > 1 else "."))
