#!/usr/bin/env python3
"""Makes the logs of the three missions, with the faults that their pages name.

usage: logs.py [FOLDER]

It writes power.csv, safe_mode.csv and pointing.csv into FOLDER, by default the one in which it lies. The noise comes
from a seed, so the files are the same each time.
"""

import random
import sys
from pathlib import Path


class Noise:
    """Small integers from a seed."""

    def __init__(self, seed):
        self.source = random.Random(seed)

    def within(self, most):
        """A number from -most to most."""
        return int(self.source.random() * (2 * most + 1)) - most


def write(path, rows):
    """Writes rows, each a dictionary of columns, as a trace with a header."""
    names = list(rows[0])
    lines = ["# " + ",".join(names)]
    lines += [",".join(str(int(row[name])) for name in names) for row in rows]
    path.write_text("\n".join(lines) + "\n", encoding="ascii")


# Power. A row is a minute, an orbit 90 rows, of which the last 35 lie in shadow. The faults:
LOST = 20  # a reading of the voltage is lost
STUCK = range(65, 90)  # the panels' relay is stuck, so nothing charges in the sun
LEFT_ON = range(110, 155)  # the payload isn't put off for the shadow
SLOW = 5  # how many rows after the alarm the payload goes off
LOOSE = range(190, 206)  # the thermostat's contact is loose


def power():
    noise, rows = Noise(1), []
    charge, temp, heater, lows, alarm, safe = 880, 120, False, 0, 0, False
    for minute in range(240):
        phase = (minute + 25) % 90
        sun = phase < 55
        load = (4 <= phase < 50 or minute in LEFT_ON) and alarm < SLOW and not safe
        charging = sun and minute not in STUCK
        charge += min((9 if charging else -6) - 5 * load, 995 - charge)
        amps = max(24 - 14 * load - (charge - 800) // 20, 1) if charging else -7 - 10 * load
        volts = 235 + charge * 8 // 100 + (7 if charging else -5 * load) + noise.within(1)
        lows = lows + 1 if volts < 260 else 0
        alarm = alarm + 1 if lows >= 3 or (alarm and volts < 264) else 0
        safe = charge < 300 or (safe and charge < 400)
        temp = min(temp + (2 if sun else -5) + 8 * heater + noise.within(1), 120)
        heater = minute // 2 % 2 == 0 if minute in LOOSE else temp < 0 or (heater and temp < 40)
        rows.append({
            "sun": sun, "load": load, "heater": heater, "alarm": alarm > 0, "safe": safe,
            "charge": charge, "volts": 0 if minute == LOST else volts, "amps": amps, "temp": temp,
        })
    return rows


# Safe mode. A row is a second. Modes are 0 nominal, 1 safing, 2 safe and 3 recovering; commands are 1 thrusters off,
# 2 wheels off, 3 radio low and 4 recover. A column keeps its value from a row on, or is on at single rows.
KEPT = {
    "mode": {0: 0, 32: 1, 62: 2, 96: 3, 120: 0, 142: 1, 170: 2, 215: 0},
    "code": {0: 0, 33: 1, 38: 2, 46: 3, 92: 4, 143: 2, 148: 1, 158: 3},
    "thrusters": {0: 1, 35: 0, 111: 1, 155: 0, 218: 1},
    "wheels": {0: 1, 43: 0, 105: 1, 145: 0, 216: 1},
    "low_rate": {0: 0, 48: 1, 108: 0, 159: 1, 185: 0, 191: 1, 217: 0},
    "lit": {0: 1, 33: 0, 58: 1, 143: 0, 166: 1},
}
SINGLE = {
    "fault": (30, 140),
    "command": (33, 38, 41, 46, 92, 143, 148, 153, 158),
    "ack": (35, 43, 48, 95, 145, 155, 159, 196),
    "refused": (39,),
}
SILENT = range(72, 82)  # the computer restarts


def safe_mode():
    noise, rows, kept, next_beat = Noise(2), [], {}, 0
    for second in range(240):
        kept.update({name: values[second] for name, values in KEPT.items() if second in values})
        row = kept | {name: second in on for name, on in SINGLE.items()}
        row["beat"] = second == next_beat and second not in SILENT
        if second == next_beat:
            next_beat += 3 + noise.within(1)
        rows.append(row)
    return rows


# Pointing. A row is a second, an angle an arc second, a speed a turn a minute.
SLEWS = (range(20, 32), range(80, 96), range(150, 166), range(200, 210))
EXPOSURES = (range(5, 16), range(40, 49), range(98, 105), range(122, 128), range(186, 196), range(220, 234))
DRIFT = range(50, 75)  # tracker 2 drifts, and is put out at the end
BLIND = range(110, 118)  # the sun is before trackers 1 and 3
STOPPED = 130  # wheel 3 stops, and wheel 1 takes its work
UNLOADS = range(180, 190)  # wheel 1 is slowed down by the magnets, late
RESET = range(172, 177)  # wheel 4 restarts


def errors(noise):
    """How far the axis is off, by row."""
    off, found = 0, []
    for second in range(240):
        slewing = any(second in slew for slew in SLEWS)
        off = 400 if slewing else off // 2
        drift = 4 * (second - DRIFT.start) // 3 if second in DRIFT else 0
        blind = 5 * (second - BLIND.start) if second in BLIND else 0
        found.append(off + drift + blind + noise.within(6))
    return found


def pointing():
    noise, rows, speeds = Noise(3), [], [1800, -2200, 1500, -900]
    for second, error in enumerate(errors(noise)):
        slew = any(second in it for it in SLEWS)
        blind = slew or second in BLIND
        drift = 4 * (second - DRIFT.start) if second in DRIFT else 0
        valid = [not blind, not slew and not 75 <= second < 120, not blind]
        seen = [error + noise.within(4) + (drift if k == 1 else 0) for k in range(3)]
        if second >= STOPPED:
            speeds[2] = speeds[2] * 3 // 4
            speeds[0] += -400 if second in UNLOADS else 90 if second < UNLOADS.stop else 5
        spin = [speed + noise.within(20) for speed in speeds]
        row = {f"v{k + 1}": valid[k] for k in range(3)} | {f"e{k + 1}": seen[k] for k in range(3)}
        row |= {"w1": 1, "w2": 1, "w3": second < STOPPED, "w4": second not in RESET}
        row |= {f"s{k + 1}": spin[k] for k in range(4)}
        row |= {"slew": slew, "unload": second in UNLOADS, "error": error}
        row["expose"] = any(second in it for it in EXPOSURES)
        rows.append(row)
    return rows


def main():
    folder = Path(sys.argv[1]) if len(sys.argv) == 2 else Path(__file__).resolve().parent
    for mission in (power, safe_mode, pointing):
        write(folder / f"{mission.__name__}.csv", mission())


if __name__ == "__main__":
    main()
