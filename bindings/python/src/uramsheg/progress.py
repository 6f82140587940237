"""How far the work is, on standard error where that is a terminal: tqdm's bar where it is installed, else a line a step. Nothing elsewhere."""
import sys


class Bar:
    """A bar that shows nothing."""

    def __init__(self, total, unit):
        self.total, self.unit, self.done = total, unit, 0

    def __enter__(self):
        return self

    def __exit__(self, *_):
        self.close()

    def step(self):
        """One more is done."""
        self.done += 1

    def say(self, line, file):
        """A line of the command's own, beside the bar."""
        print(line, file=file)

    def close(self):
        """The bar is taken away."""


class Lines(Bar):
    """A line a step."""

    def step(self):
        """One more is done, and said."""
        super().step()
        print(f"uramsheg: {self.unit} {self.done} of {self.total}", file=sys.stderr, flush=True)


class Tqdm(Bar):
    """tqdm's bar."""

    def __init__(self, total, unit):
        from tqdm import tqdm

        super().__init__(total, unit)
        self.bar = tqdm(total=total, desc="uramsheg", unit=unit, file=sys.stderr, leave=False)

    def step(self):
        """One more is done, and drawn."""
        super().step()
        self.bar.update()

    def say(self, line, file):
        """A line above the bar."""
        self.bar.write(line, file=file)

    def close(self):
        """The bar is wiped off."""
        self.bar.close()


def bar(total, unit, quiet=False):
    """The bar for a number of steps."""
    if quiet or not sys.stderr.isatty():
        return Bar(total, unit)
    try:
        return Tqdm(total, unit)
    except ImportError:
        return Lines(total, unit)
