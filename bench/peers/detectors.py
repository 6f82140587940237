"""The detectors: each takes a map and its one threshold, and answers x, y and size of bright spots; a size is a standard deviation, NaN where there is none.

All but the threshold is as the package has it, but where a line below says otherwise.
"""
from typing import Callable, NamedTuple

import numpy as np
from spots import NOISE, SIZES

#: the values that become 0 and 255 where a detector takes 8 bits
DARKEST, BRIGHTEST = -6 * NOISE, 50 * NOISE
#: a Gaussian's radius at half its height, and its full width there, in standard deviations
HALF = np.sqrt(2 * np.log(2))
#: the blur that Uramsheg takes a map to have, which its sizes leave out
BLUR = 0.5


class Detector(NamedTuple):
    """A detector by name, with Debian's package, its module, what the threshold is called, the two to look between or the same twice, and the call."""

    name: str
    package: str
    module: str
    threshold: str
    low: float
    high: float
    call: Callable


def uramsheg(values, threshold):
    """Uramsheg's `find` under the set `standard`; a size is brought to the map as it is given."""
    from uramsheg import find

    spots = find(values, snr=threshold).spots
    return spots["x"], spots["y"], np.hypot(spots["size"], BLUR)


def blob_log(values, threshold):
    """scikit-image's `blob_log` on 17 scales, 2^(1/4) apart, from 1.6 to 25.6 pixels; a size is its sigma."""
    from skimage.feature import blob_log

    found = blob_log(values, min_sigma=1.6, max_sigma=25.6, num_sigma=17, log_scale=True, threshold=threshold)
    return found[:, 1], found[:, 0], found[:, 2]


def sep(values, threshold):
    """SEP's `extract` with larger buffers, no ground taken off since it is 0; a size is sqrt(a b)."""
    import sep

    sep.set_extract_pixstack(values.size)
    sep.set_sub_object_limit(8192)
    found = sep.extract(values, threshold)
    return found["x"], found["y"], np.sqrt(found["a"] * found["b"])


def dao(values, threshold):
    """photutils' `DAOStarFinder`, which looks for one width: that of the sizes' geometric mean; it gives no size."""
    from photutils.detection import DAOStarFinder

    found = DAOStarFinder(threshold=threshold, fwhm=2 * HALF * np.sqrt(SIZES[0] * SIZES[1]))(values)
    if found is None:
        return empty()
    return np.array(found["xcentroid"]), np.array(found["ycentroid"]), np.full(len(found), np.nan)


def sift(values, threshold):
    """OpenCV's SIFT on 8 bits, each keypoint once, those above the map's median; a size is half the keypoint's."""
    import cv2

    found = cv2.SIFT_create(contrastThreshold=threshold).detect(bytes_of(values), None)
    x, y, wide = np.unique(keypoints(found), axis=0).T
    rows, cols = (np.clip(np.round(at), 0, side - 1).astype(int) for at, side in zip((y, x), values.shape))
    bright = values[rows, cols] > np.median(values)
    return x[bright], y[bright], wide[bright] / 2


def simple_blob(values, threshold):
    """OpenCV's SimpleBlobDetector on 8 bits, bright, of 5 pixels or more, of any form; a size is the radius over a Gaussian's at half its height."""
    import cv2

    words = cv2.SimpleBlobDetector_Params()
    words.minThreshold, words.maxThreshold, words.blobColor = float(level(threshold)), 255, 255
    words.minArea, words.maxArea = 5, values.size
    words.filterByConvexity = words.filterByInertia = False
    x, y, wide = keypoints(cv2.SimpleBlobDetector_create(words).detect(bytes_of(values))).T
    return x, y, wide / 2 / HALF


def level(values):
    """Values on the scale of 8 bits."""
    return (values - DARKEST) * (255 / (BRIGHTEST - DARKEST))


def bytes_of(values):
    """A map in 8 bits."""
    return np.clip(np.round(level(values)), 0, 255).astype("u1")


def keypoints(found):
    """x, y and size of OpenCV's keypoints in columns."""
    return np.array([(*one.pt, one.size) for one in found]).reshape(-1, 3)


def empty():
    """No spot."""
    return np.zeros(0), np.zeros(0), np.zeros(0)


DETECTORS = (
    Detector("Uramsheg `find`", "bindings/python/build", "uramsheg", "snr", 2, 64, uramsheg),
    Detector("Uramsheg `find`, its own snr", "bindings/python/build", "uramsheg", "snr", 8, 8, uramsheg),
    Detector("scikit-image `blob_log`", "python3-skimage", "skimage", "threshold", 0.3 * NOISE, 10 * NOISE, blob_log),
    Detector("SEP `extract`", "python3-sep", "sep", "thresh", 0.3 * NOISE, 10 * NOISE, sep),
    Detector("SEP `extract`, 8 noises", "python3-sep", "sep", "thresh", 8 * NOISE, 8 * NOISE, sep),
    Detector("photutils `DAOStarFinder`", "python3-photutils", "photutils", "threshold", NOISE, 32 * NOISE, dao),
    Detector("OpenCV SIFT", "python3-opencv", "cv2", "contrastThreshold", 0.01, 0.32, sift),
    Detector("OpenCV SimpleBlobDetector", "python3-opencv", "cv2", "minThreshold", NOISE, 32 * NOISE, simple_blob),
)
