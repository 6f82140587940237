"""The wheel: what it says it runs on, and that its shared object needs the C library alone."""
import platform
import re
import subprocess
import zipfile

import cface

import uramsheg
from uramsheg import _native

FOLDER = cface.ROOT / "target" / "python"


def test_one_wheel_for_every_python_from_3_11_on():
    (wheel,) = FOLDER.glob("*.whl")
    assert wheel.name == f"uramsheg-{uramsheg.__version__}-cp311-abi3-linux_{platform.machine()}.whl"
    names = zipfile.ZipFile(wheel).namelist()
    parts = {f"uramsheg/{name}" for name in ("__init__.py", "_native.abi3.so", "standard.set", "report.html")}
    assert parts | {f"uramsheg-{uramsheg.__version__}.dist-info/NOTICE"} <= set(names)
    assert not [name for name in names if "test" in name or "native.py" in name]


def test_the_tests_run_what_the_wheel_holds():
    assert FOLDER / "site" / "uramsheg" / "_native.abi3.so" == cface.Path(_native.__file__)


def test_the_shared_object_needs_the_c_library_alone():
    said = subprocess.run(["readelf", "--dynamic", _native.__file__], capture_output=True, text=True, check=True).stdout
    needed = re.findall(r"\(NEEDED\).*\[(.*)\]", said)
    assert "TEXTREL" not in said and all(name == "libc.so.6" or name.startswith("ld-linux") for name in needed)


def test_the_archive_s_functions_stay_inside():
    said = subprocess.run(["nm", "--dynamic", "--defined-only", _native.__file__], capture_output=True, text=True, check=True).stdout
    assert "PyInit__native" in said and "uramsheg_" not in said
