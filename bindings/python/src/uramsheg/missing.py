"""Why a spot has no size: one text a cause of uramsheg.h."""
from ._native import lib

#: the causes by their numbers, in words; 0 stands beside a size
NO_SIZE = {
    lib.URAMSHEG_NO_SIZE_POLARITY: "no size: the curve is not one of this polarity",
    lib.URAMSHEG_NO_SIZE_RANGE: "no size: beyond the fitted range",
}
#: what each means
MEANS = {
    lib.URAMSHEG_NO_SIZE_POLARITY: "at the spot's sigma it is bent the other way, too weakly, or not finite",
    lib.URAMSHEG_NO_SIZE_RANGE: "the curve is one of this polarity, but it leads beyond the set's range of T or its accepted sigmas, or to nothing finite",
}

for name in dir(lib):
    if name.startswith("URAMSHEG_NO_SIZE_") and getattr(lib, name) not in NO_SIZE:
        raise ImportError(f"{name} of uramsheg.h has no words here: build the package and its archive from one")
