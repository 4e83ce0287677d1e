#!/usr/bin/env python3
"""Makes the sample arc file two-days.arc: three stations, two days, passes of range, azimuth and elevation.

    python3 sample/make.py sample/two-days.arc

What stands in the file:
- Arc 101, first day 18,263 (2000 Jan 1), two days, edit level 30 (three sigma).
- Ten parameters: the cells C(2,0) and C(2,2), kind 1; the first coordinate of a station, kind 2; six state parameters, kind 3; one drag
  constant, kind 4. The coordinate is that of a station that sends nothing, so it stays unseen.
- Stations 12, 110 and 725 with clock corrections of 0, -35 and 1,200 ms.
- Records: a circular orbit is seen from each station; where it stands more than twenty degrees above the horizon a range (type 1, s = 2), an
  azimuth (type 7, s = 4) and an elevation (type 8, s = 4) are written every two minutes. Computed values are the orbit's; observed values are
  they plus a small pseudo-random error. Partials are the orbit's changes, in steps for each unit, rounded.
- Some records that the edit and the rules refuse: every 23rd range is 40 m off, one record names station 13, one has s = 0, one lies a day after
  the window, one repeats the time of the record before it.

The pseudo-random numbers are made here. Sines may differ in their last digit from machine to machine, so the file itself is kept beside this script.
"""
import math
import struct
import sys

FIRST, DAYS, LEVEL = 18263, 2, 30
PARAMETERS = [(1, 33, 400, 1000), (1, 35, 400, -250), (2, 36, 25, 0)] + [(3, i, 5, 10 * i) for i in range(6)] + [(4, 0, 100, 77)]
STATIONS = [(12, 0, 0.70, -0.30), (110, -35, -0.40, 1.10), (725, 1200, 0.20, 2.50)]  # number, correction, latitude, longitude
EARTH, ORBIT, TURN, DAY = 6378137.0, 8371000.0, 2 * math.pi, 86400.0
seed = 1


def chance():
    """A number from -1 to 1."""
    global seed
    seed = (seed * 6364136223846793005 + 1442695040888963407) % 2**64
    return (seed >> 33) / 2**30 - 1


def satellite(t, change=(0,) * 6):
    """Where the satellite stands t seconds after the first day's start."""
    a, i, node, u = ORBIT + change[0], 1.1 + change[1] * 1e-7, 0.5 + change[2] * 1e-7, t * TURN / 7620 + change[3] * 1e-7
    x, y = a * math.cos(u) * (1 + change[4] * 1e-7), a * math.sin(u) * (1 + change[5] * 1e-7)
    return (x * math.cos(node) - y * math.cos(i) * math.sin(node), x * math.sin(node) + y * math.cos(i) * math.cos(node), y * math.sin(i))


def seen_from(latitude, longitude, t, change=(0,) * 6):
    """Range, azimuth and elevation from a station."""
    s, c = math.sin(latitude), math.cos(latitude)
    w = longitude + TURN * t / 86164
    x, y, z = satellite(t, change)
    x, y, z = x - EARTH * c * math.cos(w), y - EARTH * c * math.sin(w), z - EARTH * s
    east = -math.sin(w) * x + math.cos(w) * y
    north = -s * math.cos(w) * x - s * math.sin(w) * y + c * z
    up = c * math.cos(w) * x + c * math.sin(w) * y + s * z
    far = math.sqrt(x * x + y * y + z * z)
    return far, math.atan2(east, north) % TURN, math.asin(up / far)


def partials(place, which, scale, t, latitude, longitude):
    """The change for each parameter: six by small changes of the orbit, the others small multiples of them."""
    base = seen_from(latitude, longitude, t)[which]
    state = []
    for k in range(6):
        change = tuple(10.0 if j == k else 0.0 for j in range(6))
        d = seen_from(latitude, longitude, t, change)[which] - base
        state.append((d + math.pi) % TURN - math.pi if which == 1 else d)
    numbers = [state[0] * 0.1, state[5] * 0.2, 0.0] + state + [state[3] * t / DAY * 0.05]
    return [max(-32768, min(32767, round(x * scale))) for x in numbers]


def main(path):
    records = []
    for number, correction, latitude, longitude in STATIONS:
        t = 300
        while t < DAYS * DAY - 300:
            far, azimuth, elevation = seen_from(latitude, longitude, t)
            if elevation > math.radians(20):
                for which, kind, s, scale, noise in ((0, 1, 2, 16.0, 0.1), (1, 7, 4, 3e6, 2e-6), (2, 8, 4, 3e6, 2e-6)):
                    computed = (far, azimuth, elevation)[which]
                    observed = computed + noise * chance()
                    if kind == 1 and len(records) % 23 == 0:
                        observed += 40
                    ms = t * 1000 - correction + kind
                    records.append([number, s, kind, FIRST + ms // 86400000, ms % 86400000, observed % TURN if kind == 7 else observed, computed,
                                    partials(0, which, scale, t, latitude, longitude)])
            t += 120
    for at, change in ((7, {0: 13}), (20, {1: 0}), (31, {3: FIRST + DAYS}), (44, None)):
        if change is None:
            records.insert(at, list(records[at - 1]))
        else:
            for field, value in change.items():
                records[at][field] = value
    out = struct.pack("<I IIHH I", 1, 101, FIRST, DAYS, LEVEL, len(PARAMETERS))
    out += b"".join(struct.pack("<HHIq", *p) for p in PARAMETERS)
    out += struct.pack("<I", len(STATIONS)) + b"".join(struct.pack("<HHi", n, 0, c) for n, c, _, _ in STATIONS)
    out += struct.pack("<I", len(records))
    for station, s, kind, day, ms, observed, computed, a in records:
        out += struct.pack("<HHIIIdd%dh" % len(a), station, s, kind, day, ms, observed, computed, *a)
    open(path, "wb").write(out)


main(sys.argv[1])
