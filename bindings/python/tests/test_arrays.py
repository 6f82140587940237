"""What is copied and what is not, and what happens beside a call."""
import threading
import time
from concurrent.futures import ThreadPoolExecutor

import numpy as np
import odd
import pytest

import uramsheg as u
from uramsheg import arrays
from uramsheg._native import ffi

LEVEL = odd.maps("standard", (12, 11), 1, 0)[0]
LEVEL[3, 4:6] = np.nan, np.inf


def address(array):
    """Where an array's first element lies."""
    return array.__array_interface__["data"][0]


@pytest.mark.parametrize("dress", sorted(odd.DRESSES))
def test_copied_or_not(dress):
    given = odd.DRESSES[dress](LEVEL)
    level = arrays.level(given)
    assert level.dtype == np.float32 and level.flags.f_contiguous and level.flags.aligned
    assert np.array_equal(level, LEVEL, equal_nan=True)
    assert np.shares_memory(level, np.ma.getdata(given)) == (dress not in odd.COPIED)


def test_the_call_reads_the_array_itself():
    given = np.asfortranarray(LEVEL)
    pointer, length = arrays.floats(arrays.level(given))
    assert (int(ffi.cast("uintptr_t", pointer)), length) == (address(given), given.size)


NOISES = [np.asfortranarray(np.random.default_rng(seed).normal(size=(1200, 1200)), dtype="f4") for seed in range(4)]


CALLS = [(u.detect, (NOISES, u.standard(), (0.0,))), (u.scene, (NOISES, u.standard(), (0.0,))), (u.levels, (np.tile(NOISES[0], (3, 3)), u.standard())),
         (u.accept, (u.detect(NOISES, u.standard(), (0.0,)), NOISES, u.standard(), (0.0,)))]


@pytest.mark.parametrize("call, given", CALLS)
def test_other_threads_run_during_a_call(call, given):
    thread = threading.Thread(target=call, args=given)
    times = [time.monotonic()]
    thread.start()
    while thread.is_alive():
        time.sleep(0.002)
        times.append(time.monotonic())
    # a call that kept the lock would be one long wait
    assert np.diff(times).max() < (times[-1] - times[0]) / 2


def test_calls_at_the_same_time_answer_as_alone():
    fours = [odd.maps("standard", (60, 50), seed, 1) for seed in range(8)]
    alone = [u.detect(four, u.standard(), (0.01,)).tobytes() for four in fours]
    with ThreadPoolExecutor(4) as pool:
        assert list(pool.map(lambda four: u.detect(four, u.standard(), (0.01,)).tobytes(), fours)) == alone
        found = list(pool.map(lambda four: u.accept(alone[3], four, u.standard(), (0.01,)), fours))
    assert found == [u.accept(alone[3], four, u.standard(), (0.01,)) for four in fours] and [one.accepted for one in found] == [place == 3 for place in range(8)]


@pytest.mark.parametrize("room", [0, 1, 2, 3, 4096])
def test_room_grows(room):
    four = odd.maps("standard", (60, 50), 2, 0)
    few = u.detect(four, u.standard(), (0.0,), room=room)
    assert len(few) > 3 and few.tobytes() == u.detect(four, u.standard(), (0.0,)).tobytes()
