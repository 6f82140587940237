"""What the tests share: map M, and hypothesis without chance, so that two runs of one build say the same."""
import os

import pytest
from hypothesis import settings
from mapm import MapM

EXAMPLES = int(os.environ.get("URAMSHEG_EXAMPLES", "200"))
settings.register_profile("gate", max_examples=EXAMPLES, derandomize=True, deadline=None, database=None)
settings.load_profile("gate")


def pytest_configure(config):
    """A warning is a failure, but for two of libraries: one built with another numpy, and rasterio's when a map without a place is written."""
    for line in ("error", "ignore:numpy.ndarray size changed", "ignore:The given matrix is equal to Affine.identity"):
        config.addinivalue_line("filterwarnings", line)


@pytest.fixture
def m():
    """Map M."""
    return MapM()
