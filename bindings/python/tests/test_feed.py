"""The feed of columns: the C face's own, and what detection lists of the whole map; how far it is, what it refuses, copies."""
import copy
import pickle
import threading
from concurrent.futures import ThreadPoolExecutor

import cface
import numpy as np
import odd
import pytest
from hypothesis import given, strategies as st

import uramsheg as u

T = cface.case("list")[0]
SETS = {"T": T, "standard": u.standard().to_bytes()}
PEAKS = st.sampled_from([0.0, 0.01, 0.1, -1.0, float("inf")])
NAN = float("nan")


def columns(levels):
    """The columns of four levels, one after the other: of each the four of one number."""
    return list(zip(*(level.T for level in levels)))


def by_key(spots):
    """Spots in detection's order: by their keys, at one key the minimum first."""
    listed = np.concatenate([np.zeros(0, u.SPOT), *spots])
    return listed[np.lexsort((listed["is_max"], listed["key"]))]


def thresholds(peak):
    """Thresholds under which the maps of the properties hold spots."""
    return u.Thresholds(peak, low=1.0, high=5.0)


def blobs(shape=(40, 50), seed=2):
    """A map with several spots, and its spots by detection."""
    four = odd.maps("standard", shape, seed, 0)
    return four, u.detect(four, u.standard(), thresholds(0.0))


def feed_of(four, peak=0.0):
    """A feed for such a map."""
    return u.Feed(u.standard(), thresholds(peak), *four[0].shape)


def test_map_m(m):
    feed = u.Feed(m.set, m.thresholds, *m.shape, m.octave)
    came = [feed.push(four).tobytes() for four in columns(m.levels())]
    assert came == [b""] * 6 + [m.line] + [b""] * 3 and feed.complete and feed.judged == range(4, 6)


@given(odd.SHAPES, st.integers(0, 2**32 - 1), st.integers(0, 3), st.sampled_from(sorted(odd.DRESSES)), st.sampled_from(sorted(SETS)), PEAKS,
       st.integers(0, 5), st.booleans())
def test_a_whole_feed_lists_what_detection_lists_whatever_the_array(shape, seed, lost, dress, name, peak, octave, at_once):
    """The columns of dressed levels, or each column's four in one dressed array; the C face's own feed gives the same bytes at each."""
    four = odd.maps(name, shape, seed, lost)
    bare = columns(four)
    dressed = [odd.DRESSES[dress](np.array(one)) for one in bare] if at_once else columns([odd.DRESSES[dress](level) for level in four])
    before = [np.ma.getdata(one).tobytes() for given in dressed for one in given]
    feed = u.Feed(SETS[name], thresholds(peak), *shape, octave)
    own = cface.Feed(SETS[name], thresholds(peak), shape, octave, [5 * shape[0] + more for more in (0, 3, 0, 1)])
    came = []
    for plain, given in zip(bare, dressed, strict=True):
        came.append(feed.push(given))
        assert own.column(plain, len(came[-1]) + 1) == (0, len(came[-1]), came[-1].tobytes() + b"\xa5" * cface.SPOT)
    assert own.number == 0 and feed.complete and feed.octave == octave and feed._state.tobytes() == own.held()[0]
    assert by_key(came).tobytes() == u.detect(four, SETS[name], thresholds(peak), octave).tobytes()
    assert before == [np.ma.getdata(one).tobytes() for given in dressed for one in given]


@pytest.mark.parametrize("name", sorted(SETS))
def test_the_maps_of_the_property_hold_spots(name):
    fours = [odd.maps(name, (21, 20), seed, 1) for seed in range(12)]
    found = [list(u.Feed(SETS[name], thresholds(0.01), 21, 20).spots(columns(four))) for four in fours]
    assert sum(map(len, found)) > 11


@pytest.mark.parametrize("seed", range(6))
def test_levels_of_a_raw_map(seed):
    """Noise of two sizes, a high ground or none, and lost pixels, blurred by the proved levels."""
    rng = np.random.default_rng(seed)
    raw = rng.normal(size=(110, 130)) + 3 * rng.normal(size=(11, 13)).repeat(10, axis=0).repeat(10, axis=1) + rng.choice([0, 1900])
    raw[rng.integers(110, size=seed), rng.integers(130, size=seed)] = np.nan
    four = u.levels(raw, u.standard())
    listed = u.detect(four, u.standard(), (0.01,))
    feed = u.Feed(u.standard(), (0.01,), 110, 130)
    assert by_key(list(map(feed.push, columns(four)))).tobytes() == listed.tobytes() and len(listed) > 9


def strips(raw, wide):
    """The columns of a raw map's levels, made of strips of so many columns and the 16 to each side that a blur may reach."""
    cols = raw.shape[1]
    for first in range(0, cols, wide):
        before, end = max(first - 16, 0), min(first + wide, cols)
        four = u.levels(raw[:, before : end + 16], u.standard())
        yield from columns([level[:, first - before : end - before] for level in four])


@pytest.mark.parametrize("wide", [1, 7, 40, 200])
def test_strips_of_raw_columns_have_the_levels_of_the_whole_map(wide):
    raw = np.random.default_rng(9).normal(size=(60, 90)).astype("f4")
    raw[30, 70] = np.nan
    four = u.levels(raw, u.standard())
    assert all(np.array_equal(one, other, equal_nan=True) for one, other in zip(map(np.array, strips(raw, wide)), map(np.array, columns(four)), strict=True))
    listed = u.detect(four, u.standard(), (0.01,))
    feed = u.Feed(u.standard(), (0.01,), 60, 90)
    assert by_key(list(map(feed.push, strips(raw, wide)))).tobytes() == listed.tobytes() and len(listed) > 3


def test_spots_come_with_the_column_two_further_and_by_rows():
    four, listed = blobs()
    feed = feed_of(four)
    for number, given in enumerate(columns(four)):
        assert feed.position == number and not feed.complete
        came = feed.push(given)
        due = listed[listed["key"] % 50 == number - 2]
        assert came.dtype == u.SPOT and came.tobytes() == due.tobytes()
        assert feed.judged == range(4, min(max(number - 1, 4), 46))
    assert feed.complete and feed.position == feed.cols == 50 and feed.rows == 40 and len(listed) > 3


@given(st.integers(0, 50))
def test_a_feed_that_stops_early_has_listed_its_judged_columns(stop):
    four, listed = blobs()
    feed = feed_of(four)
    spots = np.array(list(feed.spots(columns(four)[:stop])), u.SPOT)
    judged = np.isin(listed["key"] % 50, np.array(feed.judged, int))
    assert by_key([spots]).tobytes() == listed[judged].tobytes() and feed.position == stop
    assert len(feed.judged) == min(max(stop - 6, 0), 42) and (stop < 48 or all(judged))


def test_spots_come_one_by_one_while_columns_come():
    """No column is asked for before the spots of the one before have gone out."""
    four, listed = blobs()
    asked = []
    scanner = (asked.append(number) or given for number, given in enumerate(columns(four)))
    for spot in feed_of(four).spots(scanner):
        assert asked[-1] == spot["key"] % 50 + 2
    assert len(asked) == 50 and len(listed) > 3


@pytest.mark.parametrize("shape", [(0, 0), (0, 12), (12, 0), (8, 20), (20, 8), (1, 1), (9, 9), (4096, 9)])
def test_narrow_maps(shape):
    feed = u.Feed(T, (0.0,), *shape)
    assert feed.complete == (shape[1] == 0)
    assert [len(feed.push(np.zeros((4, shape[0])))) for _ in range(shape[1])] == [0] * shape[1]
    assert feed.complete and feed.judged == range(4, max(4, shape[1] - 4))
    with pytest.raises(u.PastRefused):
        feed.push(np.zeros((4, shape[0])))


def test_the_last_column_then_past():
    feed = u.Feed(T, (0.0,), 5, 2)
    for _ in range(2):
        feed.push(np.zeros((4, 5)))
    for given in (np.zeros((4, 5)), np.zeros((4, 6))):
        with pytest.raises(u.PastRefused) as caught:
            feed.push(given)
        assert str(caught.value) == "refused 9: all columns of the feed have come: start another feed for the next map (2 of 2)"
        assert caught.value.number == 9 and feed.position == 2


@pytest.mark.parametrize("place", range(4))
@pytest.mark.parametrize("length", [0, 39, 41, 4096])
def test_a_column_of_another_length_is_not_taken_and_may_be_given_again(place, length):
    four, listed = blobs()
    feed, came = feed_of(four), []
    for number, given in enumerate(columns(four)):
        wrong = list(given)
        wrong[place] = np.zeros(length)
        before = pickle.dumps(feed)
        with pytest.raises(u.LevelRefused) as caught:
            feed.push(wrong)
        assert caught.value.number == 2 and f"{length}" in caught.value.detail.split(", ")[place] and "for 40 rows" in str(caught.value)
        assert feed.position == number and pickle.dumps(feed) == before
        came.append(feed.push(given))
    assert by_key(came).tobytes() == listed.tobytes()


def test_a_column_of_the_c_face_without_room_is_not_taken_and_given_again_gives_what_it_would_have_given_at_once():
    four, listed = blobs()
    own = cface.Feed(SETS["standard"], thresholds(0.0), (40, 50), 0, [200] * 4)
    feed, refused = feed_of(four), 0
    for given in columns(four):
        due = feed.push(given)
        for room in range(len(due)):
            before = own.held()
            assert own.column(given, room) == (6, 0, b"\xa5" * cface.SPOT * room) and own.held() == before
            refused += 1
        assert own.column(given, len(due)) == (0, len(due), due.tobytes())
    assert refused == len(listed) > 3


@given(st.tuples(*[st.sampled_from([9, 4096, 4097])] * 2), st.sampled_from([5, 6, 2**64 - 1]), st.booleans(), st.booleans())
def test_the_first_refusal_of_a_start_is_the_c_face_s_own(shape, octave, good, lost):
    record, limits = T[: 528 if good else 527], (1.0, 1.0, NAN if lost else 10.0, 1.9, 4.1)
    own = cface.Feed(record, limits, shape, octave, [5 * min(shape[0], 4096)] * 4)
    due = 1 if max(shape) > 4096 else 3 if octave > 5 else 8 if lost else 0 if good else 4
    try:
        assert u.Feed(record, limits, *shape, octave)._state.tobytes() == own.held()[0] and own.number == 0
    except u.Refused as error:
        assert error.number == own.number and own.held()[0] == b"\xa5" * 564
    assert own.number == due


@pytest.mark.parametrize("lengths, room", [([44, 45, 45, 45], 564), ([45, 45, 45, 44], 564), ([45] * 4, 563), ([45] * 4, 0)])
def test_a_start_of_the_c_face_on_short_room_writes_nothing(lengths, room):
    own = cface.Feed(T, (1.0, 1.0, 10.0, 1.9, 4.1), (9, 12), 0, lengths, room)
    assert own.number == 6 and own.held()[0] == b"\xa5" * room


def test_a_start_names_what_is_refused():
    for given, kind, said in [((T, (1.0,), 5000, 3), u.SizeRefused, "5000 by 3"), ((T, (1.0,), 3, 2**63), u.SizeRefused, "use scene"),
                              ((T, (1.0,), 9, 9, 6), u.OctaveRefused, "octave 6"), ((T, (1.0, 1.0, NAN, NAN), 9, 9), u.ThresholdsRefused, "(ratio, low)"),
                              ((T[:-1], (1.0,), 9, 9), u.SetRefused, "527 bytes")]:
        with pytest.raises(kind) as caught:
            u.Feed(*given)
        assert said in str(caught.value)


def test_what_is_no_argument_is_no_refusal():
    feed = u.Feed(T, (1.0,), 9, 12)
    column = np.zeros(9, "f4")
    wrong = [
        lambda: u.Feed(T, (1.0,), 9.5, 12), lambda: u.Feed(T, (1.0,), 9, "12"), lambda: u.Feed("standard", (1.0,), 9, 12), lambda: u.Feed(T, (1,) * 6, 9, 12),
        lambda: feed.push([column] * 3), lambda: feed.push([column] * 5), lambda: feed.push(np.zeros((9, 4))), lambda: feed.push([np.zeros((9, 1))] * 4),
        lambda: feed.push([column > 0] * 4), lambda: feed.push([column + 1j] * 4), lambda: feed.push(7), lambda: feed.push(column),
    ]
    for call in wrong:
        pytest.raises(TypeError, call)
    for call in (lambda: u.Feed(T, (1.0,), -1, 9), lambda: u.Feed(T, (1.0,), 9, 2**64), lambda: u.Feed(T, (1.0,), 9, 9, -1)):
        with pytest.raises(ValueError) as caught:
            call()
        assert not isinstance(caught.value, u.Refused)
    assert feed.position == 0


COPIES = {"copy": copy.copy, "deep copy": copy.deepcopy, "pickle": lambda feed: pickle.loads(pickle.dumps(feed))}


@given(st.integers(0, 50), st.sampled_from(sorted(COPIES)))
def test_a_copy_goes_on_by_itself_where_it_was_made(stop, kind):
    four, listed = blobs()
    other, _ = blobs(seed=3)
    feed = feed_of(four)
    came = [feed.push(given) for given in columns(four)[:stop]]
    made = COPIES[kind](feed)
    for given in columns(other)[stop:]:
        feed.push(given)
    assert (made.rows, made.cols, made.position) == (40, 50, stop) and feed.complete
    came += [made.push(given) for given in columns(four)[stop:]]
    assert by_key(came).tobytes() == listed.tobytes() and made.complete


def test_answers_are_kept_when_the_feed_goes_on():
    four, listed = blobs()
    feed = feed_of(four)
    came = [feed.push(given) for given in columns(four)]
    kept = [part.copy() for part in came]
    with pytest.raises(u.PastRefused):
        feed.push(columns(four)[0])
    assert [part.tobytes() for part in came] == [part.tobytes() for part in kept] and sum(map(len, came)) == len(listed)


def test_a_feed_s_spots_are_sized_as_any():
    four, listed = blobs()
    feed = feed_of(four)
    sized = [u.join(feed.push(given), u.standard(), (40, 50)) for given in columns(four)]
    assert by_key([part[list(u.SPOT.names)].astype(u.SPOT) for part in sized]).tobytes() == listed.tobytes()
    assert sorted(part.tobytes() for part in np.concatenate(sized)) == sorted(part.tobytes() for part in u.join(listed, u.standard(), (40, 50)))


def test_feeds_at_the_same_time_answer_as_alone():
    fours = [odd.maps("standard", (60, 50), seed, 1) for seed in range(8)]

    def listed(four):
        return [part.tobytes() for part in map(feed_of(four).push, columns(four))]

    alone = [listed(four) for four in fours]
    with ThreadPoolExecutor(4) as pool:
        assert list(pool.map(listed, fours)) == alone


def test_threads_that_share_a_feed_give_a_column_each():
    """Of equal columns, so that their order does not matter: none is lost, and none is taken twice."""
    feed, past = u.Feed(u.standard(), (0.0,), 60, 400), []

    def give():
        for _ in range(150):
            try:
                feed.push(np.zeros((4, 60), "f4"))
            except u.PastRefused as error:
                past.append(error.number)

    threads = [threading.Thread(target=give) for _ in range(4)]
    for thread in threads:
        thread.start()
    for thread in threads:
        thread.join()
    assert feed.complete and past == [9] * 200


def test_what_it_says_of_itself():
    feed = u.Feed(T, (1.0,), 9, 12, 3)
    feed.push(np.zeros((4, 9)))
    assert repr(feed) == "<uramsheg.Feed of 9 by 12, 1 columns taken>" and feed.octave == 3
