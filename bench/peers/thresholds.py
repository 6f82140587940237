"""The rule by which every detector gets its threshold."""
import numpy as np


def threshold(detector, values, steps):
    """The least threshold between the detector's two, by that many halvings in the logarithm, at which a map of noise alone gives at most one answer."""
    if detector.low == detector.high or answers(detector, values, detector.low) <= 1:
        return detector.low
    if answers(detector, values, detector.high) > 1:
        raise SystemExit(f"{detector.name}: more than one answer on noise at {detector.high}")
    low, high = np.log([detector.low, detector.high])
    for _ in range(steps):
        middle = (low + high) / 2
        low, high = (middle, high) if answers(detector, values, np.exp(middle)) > 1 else (low, middle)
    return float(np.exp(high))


def answers(detector, values, at):
    """How many spots a detector lists of a map at a threshold."""
    return len(detector.call(values, at)[0])
