"""The settings that SciPy's brentq and toms748 try on each curve, a line each: method, curve, tolerance, settings in order.

Usage: scipy_trials.py VALUES > TRIED, with the file that `savings --values VALUES` writes. The dryer takes whole hundredths of a degree, so
a setting that a method asks for is rounded to one.
"""

import math
import sys

from scipy.optimize import brentq, toms748

TOLERANCES = (1, 25, 500)


def tried(method, values, tolerance):
    """The settings that a method tries, told to find the target to within the tolerance."""
    settings = []

    def dried(x):
        setting = math.floor(x + 0.5)
        settings.append(setting)
        return float(values[setting])

    method(dried, 0.0, float(len(values) - 1), xtol=float(tolerance))
    return settings


def main():
    with open(sys.argv[1], encoding="utf-8") as lines:
        for line in lines:
            name, *texts = line.rstrip("\n").split(",")
            values = [int(text) for text in texts]
            for tolerance in TOLERANCES:
                for shown, method in (("SciPy brentq", brentq), ("SciPy toms748", toms748)):
                    settings = tried(method, values, tolerance)
                    print(shown, name, tolerance, *settings, sep=",")


main()
