"""How far the work is: on a terminal alone, with tqdm and without."""
import io
import os
import pty
import subprocess
import sys

import blob
import numpy as np
import pytest

from uramsheg import command

RAW = blob.spots((140, 150), (30.2, 40.1, 2.5, 100), (70.3, 50.4, 3.1, 60))


class Terminal(io.StringIO):
    """A text that says it is a terminal."""

    def isatty(self):
        """It is."""
        return True


@pytest.fixture
def here(tmp_path, monkeypatch):
    """A folder with two maps, as the current one."""
    monkeypatch.chdir(tmp_path)
    for name in ("a.npy", "b.npy"):
        np.save(name, RAW)


def shown(monkeypatch, *words):
    """What the command shows on a terminal."""
    terminal = Terminal()
    monkeypatch.setattr(sys, "stderr", terminal)
    assert command.main(["detect", *words, "--peak", "10"]) == 0
    return terminal.getvalue()


@pytest.mark.parametrize("words, lines", [
    (("a.npy",), ["octave 1 of 3", "octave 2 of 3", "octave 3 of 3"]), (("a.npy", "--octaves", "1", "7"), ["octave 1 of 1"]),
    (("a.npy", "b.npy"), ["map 1 of 2", "map 2 of 2"]), (("a.npy", "b.npy", "-q"), []),
])
def test_lines_where_tqdm_is_missing(here, monkeypatch, words, lines):
    monkeypatch.setitem(sys.modules, "tqdm", None)
    assert shown(monkeypatch, *words).splitlines() == [f"uramsheg: {line}" for line in lines]


def test_a_bar_where_tqdm_is_there(here, monkeypatch, capsys):
    said = shown(monkeypatch, "a.npy", "b.npy")
    assert "uramsheg" in said and "0/2" in said
    assert [line.split(":")[0] for line in capsys.readouterr().out.splitlines() if "spots" in line] == ["a.npy", "b.npy"]


def ran(words, terminal):
    """What the command says on standard error, which is a terminal or a pipe."""
    ours, theirs = pty.openpty() if terminal else os.pipe()
    with subprocess.Popen([sys.executable, "-m", "uramsheg", *words], stdout=subprocess.DEVNULL, stderr=theirs) as run:
        os.close(theirs)
        said = b""
        try:
            while part := os.read(ours, 4096):
                said += part
        except OSError:  # a terminal whose other side is closed
            pass
    os.close(ours)
    return run.returncode, said


def test_a_real_terminal_and_a_pipe(tmp_path):
    np.save(tmp_path / "a.npy", RAW)
    words = ["detect", str(tmp_path / "a.npy"), "--peak", "10"]
    assert ran(words, terminal=False) == (0, b"")
    code, said = ran(words, terminal=True)
    assert code == 0 and b"octave" in said
