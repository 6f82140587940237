"""Sets of tables: bytes, fields and TOML and back; every fault in words."""
import copy
import pickle

import cface
import numpy as np
import pytest
from hypothesis import given, strategies as st

import uramsheg as u
from uramsheg import tables
from uramsheg.records import NUMBERS
from uramsheg.text import shortest

T = cface.case("list")[0]
GOOD = {"T": T, "standard": u.standard().to_bytes()}


@st.composite
def good_sets(draw):
    """Records of good sets: any finite floats, rising sigmas, a cap from 0 on, any order."""
    record = np.zeros((), u.SET)
    record["sigmas"] = sorted(draw(st.sets(st.floats(2**-140, 2**120, width=32), min_size=4, max_size=4)))
    flat = np.frombuffer(draw(st.binary(min_size=500, max_size=500)), "<f4").copy()
    flat[~np.isfinite(flat)] = 0
    flat[-1] = abs(flat[-1])
    return record.tobytes()[:16] + flat.tobytes() + bytes(draw(st.lists(st.integers(0, 8), min_size=9, max_size=9))) + bytes(3)


@given(good_sets())
def test_there_and_back(record):
    assert cface.good(record) and tables.faults(record) == []
    made = u.read_set(record)
    assert made.to_bytes() == record and made == u.Tables.from_toml(made.to_toml()) == made.replace()
    assert made == pickle.loads(pickle.dumps(made)) == copy.deepcopy(made) and hash(made) == hash(u.Tables.from_bytes(record))


@given(st.sampled_from(sorted(GOOD)), st.dictionaries(st.integers(0, 527), st.integers(0, 255), max_size=4), st.integers(520, 528))
def test_faults_are_named_exactly_where_the_proved_check_finds_one(name, damage, length):
    record = bytearray(GOOD[name])
    for place, byte in damage.items():
        record[place] = byte
    record = bytes(record[: length if length < 526 else 528])
    assert (tables.faults(record) == []) == cface.good(record)
    try:
        assert u.read_set(record).to_bytes() == record
    except u.SetRefused as error:
        assert error.detail == "; ".join(tables.faults(record)) != ""


SPECIAL = st.sampled_from([0.0, -0.0, 1.0, -1.0, float("nan"), float("inf"), -float("inf"), 2**-149, 3.4028234663852886e38])


@given(st.sampled_from(sorted(GOOD)), st.sampled_from(["sigmas", "move_cap", "scale", "geometry", "spatial", *NUMBERS]), SPECIAL, st.integers(0, 89))
def test_special_numbers(name, field, value, place):
    made = np.frombuffer(GOOD[name], u.SET).copy()
    flat = made[field].reshape(-1)
    flat[place % len(flat)] = value
    made[field] = flat.reshape(made[field].shape)
    assert (tables.faults(made.tobytes()) == []) == cface.good(made.tobytes())


@pytest.mark.parametrize("lost", ["0000c07f", "ffffffff", "0100807f", "010080ff"])
def test_every_nan_is_named_quiet_or_signalling(lost):
    made = u.Tables.from_bytes(bytes.fromhex(lost) * 129 + bytes(12))
    assert made.to_bytes() == bytes.fromhex(lost) * 129 + bytes(12) and len(made.faults()) == 129 and all(fault.endswith(" is not finite") for fault in made.faults())
    assert repr(made) == "<uramsheg.Tables of sigmas nan, nan, nan, nan>"


def test_every_fault_is_named():
    nan = np.float32(np.nan)
    bad = u.standard().replace(sigmas=[0, nan, 3, 3], scale=np.full((4, 3), np.inf), move_cap=-1, order=[9] * 9, spare=[1, 0, 2], blend_beta=nan)
    said = bad.faults()
    assert [fault for fault in said if not fault.startswith(("scale", "order"))] == [
        "sigmas[1] is not finite", "blend_beta is not finite", "sigmas[0] is 0.0, not above 0", "sigmas[3] is not above sigmas[2]",
        "move_cap is -1.0, below 0", "spare[0] is 1, not 0", "spare[2] is 2, not 0"]
    assert sum(fault.startswith("scale[") for fault in said) == 12 and "scale[3][2] is not finite" in said
    assert sum(fault.startswith("order[") for fault in said) == 9 and "order[8] is 9, not 0 to 8" in said
    with pytest.raises(u.SetRefused):
        bad.to_toml()


@given(st.floats(width=32))
def test_the_shortest_text_reads_back(value):
    again = np.float32(float(shortest(value)))
    assert again.tobytes() == np.float32(value).tobytes() or (value != value and again != again)


def test_faults_of_a_text():
    whole = u.standard().to_toml()
    with pytest.raises(u.TablesFault) as caught:
        u.Tables.from_toml(whole.replace("format = 1", "format = 2").replace("sigmas =", "sigma =").replace("move_cap", "cap").replace("6, 7, 8]", "6, 7]"))
    assert caught.value.faults == ("sigma is unknown", "numbers.cap is unknown", "format is 2, not 1", "numbers.move_cap is missing",
                                   "order is not 9 numbers", "sigmas is missing")
    assert str(pickle.loads(pickle.dumps(caught.value))) == "; ".join(caught.value.faults)
    wrong = {
        "blend_beta = 0.5": "blend_beta = true", "fit_t_min = 0.0": "fit_t_min = [0.0]", "order = [0,": "order = [1.5,", "[0.25, 0.0": "[0.25, 'a'",
        "geometry = [\n": "geometry = [\n[1, 2, 3],\n",
    }
    for old, new in wrong.items():
        assert old in whole
        with pytest.raises(u.TablesFault):
            u.Tables.from_toml(whole.replace(old, new, 1))
    for text in ("", "format = ", "numbers = 3", "format = 1\n[numbers]\n"):
        with pytest.raises(u.TablesFault):
            u.Tables.from_toml(text)


def test_files(tmp_path):
    made = u.standard()
    for name, octets in (("a.set", made.to_bytes()), ("a.toml", made.to_toml().encode())):
        (tmp_path / name).write_bytes(octets)
        assert tables.load(tmp_path / name) == made
    for octets, kind in ((made.to_bytes()[:-1] + b"\1", u.SetRefused), (b"\xff" * 527, u.TablesFault), (b"", u.TablesFault),
                         (made.to_toml().replace("sigmas = [1.6", "sigmas = [9.6").encode(), u.SetRefused)):
        (tmp_path / "bad").write_bytes(octets)
        pytest.raises(kind, tables.load, tmp_path / "bad")


def test_a_set_is_unchangeable():
    made = u.standard()
    with pytest.raises(AttributeError):
        made.move_cap = 3
    with pytest.raises(ValueError):
        made.sigmas[0] = 3
    assert made.replace(move_cap=3).move_cap == 3 and made == u.standard() and made.replace(move_cap=3) != made
    for wrong in ({"cap": 3}, {"sigmas": [1, 2, 3]}, {"move_cap": [1]}):
        pytest.raises(TypeError, made.replace, **wrong)
    pytest.raises(TypeError, u.Tables, sigmas=[1, 2, 3, 4])
