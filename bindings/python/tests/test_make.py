"""The set `standard`: what it is made of, and that its maker still makes it."""
import subprocess
import sys

import numpy as np

import uramsheg as u
from uramsheg import make, tables

KINDS = {"stated", "derived", "fitted", "chosen"}


def test_each_part_says_where_it_comes_from():
    assert set(make.PARTS) == set(u.SET.names) - {"spare"} and {kind for kind, _ in make.PARTS.values()} == KINDS


def test_the_stored_set_is_good():
    assert u.standard().faults() == [] and u.read_set(u.standard().to_bytes()) == u.standard()


def test_the_maker_makes_it(tmp_path):
    """Bit for bit but for what linear algebra works out, where another library of it may differ."""
    subprocess.run([sys.executable, "-m", "uramsheg.make", tmp_path / "made.set"], check=True)
    stored, again = u.standard(), tables.load(tmp_path / "made.set")
    for name, (kind, _) in make.PARTS.items():
        old, new = np.asarray(getattr(stored, name)), np.asarray(getattr(again, name))
        assert np.allclose(old, new, rtol=0, atol={"derived": 1e-5, "fitted": 1e-3}.get(kind, 0)), name


def test_stated_and_chosen_numbers():
    made = u.standard()
    assert np.array_equal(made.sigmas, np.float32([1.6, 1.6 * 2**0.5, 3.2, 3.2 * 2**0.5])) and made.log_sigma_origin == np.float32(1.6)
    assert made.move_cap == np.float32(1 / 40) and (made.fit_t_min, made.fit_t_max) == (0, 1.5)
    assert np.allclose(u.Thresholds(1)[3:], [1.6 * 2**0.25, 1.6 * 2**1.375], rtol=1e-7)


def test_the_derived_cubic_goes_through_its_samples():
    samples = np.array([3.0, -1.0, 4.0, 1.5])
    cubic = u.standard().scale.astype(float) @ (samples[:3] - samples[3])
    cubic[3] += samples[3]
    assert np.allclose(np.polyval(cubic, u.standard().sigmas.astype(float)), samples, atol=1e-3)


def test_the_derived_quadratic_is_met():
    rows, cols = np.mgrid[-1:2, -1:2]
    wanted = np.array([0.5, -0.25, 1.0, 2.0, -3.0])
    values = sum(w * f for w, f in zip(wanted, (cols**2, rows**2, rows * cols, cols, rows))) + 7
    assert np.allclose(u.standard().spatial[0].astype(float) @ values.ravel(), wanted, atol=1e-5)


def test_the_fitted_cubic_has_its_extreme_at_the_size():
    geometry = u.standard().geometry.astype(float)
    errors = []
    for s, samples in make.cases(make.SIGMAS, 1.95, 3.7, 9):
        cubic = geometry @ (samples[:3] - samples[3])
        roots = np.roots(np.polyder(cubic))
        t = np.log2(s / 1.6)
        errors.append(2 ** (min(roots[np.isreal(roots)].real, key=lambda root: abs(root - t)) - t) - 1)
    assert np.abs(errors).max() < 0.02 and abs(np.mean(errors)) < 0.005
