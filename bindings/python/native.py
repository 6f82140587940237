"""uramsheg._native: the archive libalp_c.a in a shared object, seen through uramsheg.h. `build` lays both beside this file.

cffi reads the header itself, so there is no second list of signatures; gcc compiles the calls against the same header.
"""
import re
from pathlib import Path

from cffi import FFI

here = Path(__file__).resolve().parent
text = (here / "uramsheg.h").read_text()
# cffi knows neither comments of several lines nor directives
text = re.sub(r"/\*.*?\*/", "", text, flags=re.S)
text = re.sub(r"#ifdef __cplusplus.*?#endif", "", text, flags=re.S)
text = re.sub(r"^\s*#.*$", "", text, flags=re.M)

ffi = FFI()
ffi.cdef(text)
ffi.set_source(
    "uramsheg._native",
    '#include "uramsheg.h"',
    include_dirs=[str(here)],
    extra_objects=[str(here / "libalp_c.a")],
    extra_compile_args=["-g0"],
    extra_link_args=["-Wl,--exclude-libs,ALL"],
    define_macros=[("Py_LIMITED_API", "0x030b0000")],
    py_limited_api=True,
)
