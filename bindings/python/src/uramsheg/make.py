"""The maker of the set `standard`: run as `python3 -m uramsheg.make FILE` it writes the record anew.

Nothing of it comes from the tables of the published detector, which are not here; PARTS says where each field comes from. The model of what is fitted:
a spot is a Gaussian of standard deviation s on a flat ground, in a map whose own blur is `base` pixels. Level k blurs it to sigmas[k] with a sampled,
cut kernel like those that levels are made with (`half_kernel`); the sample is sigmas[k]^2 times the five-point Laplacian. In the continuum its response is
-2 s^2 sigma^2 / (s^2 + sigma^2)^2 times the height, extreme at sigma = s.

The record is stored, not made when it is needed: another library of linear algebra may give other last bits.
"""
import math
import sys
from pathlib import Path

import numpy as np

from .records import NUMBERS
from .tables import Tables

#: where each field of the set comes from
PARTS = {
    "sigmas": ("stated", "1.6 * 2^(k/2): the published text speaks of 1.6, 2.26, 3.2 and 4.53"),
    "scale": ("derived", "the cubic through the four samples"),
    "geometry": ("fitted", "to Gaussian spots under kernels as levels are made with (`fit_geometry`)"),
    "spatial": ("derived", "the quadratic of least squares on the nine samples"),
    "log_sigma_origin": ("stated", "1.6: the published text writes scales as 1.6 * 2^t"),
    "curvature_epsilon": ("chosen", "1e-6"),
    "fit_t_min": ("chosen", "0, the first sigma"),
    "fit_t_max": ("chosen", "1.5, the last sigma"),
    "accepted_sigma_min": ("chosen", "the first sigma"),
    "accepted_sigma_max": ("chosen", "the last sigma"),
    "blend_beta": ("chosen", "1/2"),
    "blend_boost": ("chosen", "1"),
    "compatibility_lower": ("chosen", "2e-5"),
    "compatibility_upper": ("chosen", "2e-4"),
    "move_cap": ("stated", "1/40 octave"),
    "order": ("chosen", "0 to 8: the tables' columns go by rows"),
}
SIGMAS = tuple(1.6 * 2 ** (k / 2) for k in range(4))
PHASES = (-1 / 3, 0.0, 1 / 3)
#: the pixel noise that the fit allows for, in heights of the spot
NOISE = 0.02
#: the largest radius of a kernel
MOST_RADIUS = 16


def half_kernel(sigma):
    """The taps 0 to radius of a sampled Gaussian, in float32. It is not the proved kernel: its exp is the platform's, which may differ in the last place."""
    sigma = np.float32(sigma)
    radius = math.ceil(min(float(np.float32(3) * sigma), MOST_RADIUS))
    places = np.arange(-radius, radius + 1).astype(np.float32) / sigma
    full = np.exp((np.float32(-0.5) * places * places).astype(float)).astype(np.float32)
    return full[radius:] / np.cumsum(full)[-1]


def whole_kernel(target, base):
    """All taps of the kernel that takes a blur of `base` to one of `target`."""
    taps = half_kernel(max(np.sqrt(max(target**2 - base**2, 0)), 0.1)).astype(float)
    return np.concatenate([taps[:0:-1], taps])


def profile(s, base, target, centre):
    """A Gaussian of height 1 around `centre` along one axis, of standard deviation s before the base map's blur, blurred: at -1, 0 and 1."""
    kernel = whole_kernel(target, base)
    reach = len(kernel) // 2 + 1
    places = np.arange(-reach, reach + 1)
    return np.convolve(np.exp(-((places - centre) ** 2) / 2 / (s * s + base * base)), kernel, mode="valid")


def response(s, base, target, x, y):
    """The sample at pixel (0, 0) of a Gaussian spot at (x, y), of height 1 in the base map."""
    along, across = profile(s, base, target, x), profile(s, base, target, y)
    laplacian = (along[0] + along[2]) * across[1] + along[1] * (across[0] + across[2]) - 4 * along[1] * across[1]
    return target**2 * laplacian


def cases(sigmas, low, high, count):
    """Spots between two sizes at nine places in a pixel, in octave 0 and later: the size and the four samples, for a height of 1 before the base's blur."""
    for base in (0.5, sigmas[2] / 2):
        for s in np.geomspace(low, high, count):
            for x in PHASES:
                for y in PHASES:
                    height = s * s / (s * s + base * base)
                    yield s, np.array([response(s, base, target, x, y) for target in sigmas]) * height


def noise_root(sigmas, base):
    """A root of the four samples' covariance for white noise of 1 in the base map."""
    reach = 18
    weights = []
    for target in sigmas:
        kernel = whole_kernel(target, base)
        radius = len(kernel) // 2
        field = np.zeros((2 * reach + 1, 2 * reach + 1))
        field[reach - radius : reach + radius + 1, reach - radius : reach + radius + 1] = np.outer(kernel, kernel)
        around = sum(np.roll(field, step, axis) for step in (1, -1) for axis in (0, 1))
        weights.append(target**2 * (around - 4 * field).ravel())
    return np.linalg.cholesky(np.array([[a @ b for b in weights] for a in weights]))


def cubic_through(nodes):
    """The cubic through samples at four nodes: rows a, b, c, d by samples 0, 1, 2, each less sample 3."""
    return np.linalg.inv(np.vander(np.asarray(nodes, float), 4))[:, :3]


def powers(t, derivative=0):
    """The powers of t in a cubic, its slope or its curvature."""
    return np.array([[t**3, t * t, t, 1], [3 * t * t, 2 * t, 1, 0], [6 * t, 2, 0, 0]][derivative])


def fit_geometry(sigmas, low, high, count=21):
    """The cubic in t = log2(sigma / sigmas[0]) whose extreme stands, for a Gaussian of size s, at s.

    Asked of each case, as in the continuum: slope 0 at t; value -1/2 and curvature 1/2 a squared neper, each with weight 0.3; a slope that is steady under
    noise. A little weight draws the cubic to the one through the samples.
    """
    rows, answers = [], []

    def ask(powers_at, differences, answer, weight=1.0):
        """One equation for the cubic's twelve entries."""
        rows.append(weight * np.outer(powers_at, differences).ravel())
        answers.append(weight * answer)

    root = noise_root(sigmas, 0.5)
    for s, samples in cases(sigmas, low, high, count):
        t = np.log2(s / sigmas[0])
        differences = samples[:3] - samples[3]
        ask(powers(t, 1), differences, 0.0)
        ask(powers(t), differences, -0.5 - samples[3], 0.3)
        ask(powers(t, 2), differences, 0.5 * np.log(2) ** 2, 0.3)
        for column in root.T:
            ask(powers(t, 1), NOISE * (column[:3] - column[3]), 0.0)
    prior = cubic_through(np.log2(np.asarray(sigmas) / sigmas[0]))
    drawn = 1e-6
    q, r = np.linalg.qr(np.concatenate([np.array(rows), drawn * np.eye(12)]))
    return np.linalg.solve(r, q.T @ np.concatenate([np.array(answers), drawn * prior.ravel()])).reshape(4, 3)


def quadratic():
    """Rows w1 (x^2), w2 (y^2), w3 (xy), w4 (x), w5 (y) of the least squares over nine samples, by rows."""
    second = np.array([[1, -2, 1]] * 3) / 6
    first = np.array([[-1, 0, 1]] * 3) / 6
    both = np.array([[1, 0, -1], [0, 0, 0], [-1, 0, 1]]) / 4
    return np.array([second, second.T, both, first, first.T]).reshape(5, 9)


def made(sigmas=SIGMAS):
    """The set `standard`, or one made in the same way for other sigmas."""
    sigmas = np.asarray(sigmas, float)
    low, high = np.sqrt(sigmas[0] * sigmas[1]), np.sqrt(sigmas[2] * sigmas[3])
    ends = sigmas[0], sigmas[3]
    numbers = [sigmas[0], 1e-6, 0, np.log2(sigmas[3] / sigmas[0]), *ends, 0.5, 1, 2e-5, 2e-4, 1 / 40]
    return Tables(
        sigmas=sigmas,
        scale=cubic_through(sigmas),
        geometry=fit_geometry(sigmas, low * 0.95, high * 1.12),
        spatial=[quadratic()] * 2,
        order=range(9),
        **dict(zip(NUMBERS, numbers)),
    )


if __name__ == "__main__":
    Path(sys.argv[1]).write_bytes(made().to_bytes())
