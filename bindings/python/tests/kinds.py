"""A map of three spots, and a set under which they are of the three kinds: with a size, and without one for either cause."""
import blob

import uramsheg as u

SPOTS = ((30.2, 40.1, 2.2, 100), (85.3, 50.4, 3.1, 80), (60.2, 95.4, 2.4, 30))
RAW = blob.spots((120, 130), *SPOTS)
#: the strongest spot has a size; the second's is beyond the accepted sigmas, the third's curve too weak
CAUSES = [0, 2, 1]


def tables():
    """The set."""
    return u.standard().replace(accepted_sigma_max=2.8, curvature_epsilon=12 / u.find(RAW, peak=5).unit)


def found(**options):
    """The spots, the strongest first."""
    return u.find(RAW, tables(), peak=5, **options)
