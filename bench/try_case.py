"""The case and the schedule that `hull try NUMBER` makes, as files have them: docs/FORMATS.md, 'The generated case'."""

PERIODS = 48
MASK = (1 << 64) - 1


class Pcg32:
    """The generator PCG XSH RR 64/32 (O'Neill 2014), as rand_pcg has it, with the stream 54."""

    def __init__(self, seed, stream=54):
        self.step = (stream << 1 | 1) & MASK
        self.state = (seed + self.step) & MASK
        self.advance()

    def advance(self):
        self.state = (self.state * 6364136223846793005 + self.step) & MASK

    def draw(self, low, high):
        """A whole number from `low` to `high`."""
        old = self.state
        self.advance()
        turned, by = ((old >> 18 ^ old) >> 27) & 0xFFFFFFFF, old >> 59
        word = (turned >> by | turned << (-by & 31)) & 0xFFFFFFFF
        return low + word % (high - low + 1)


def thermal(draw):
    """A thermal unit: the fields of the case, and its schedule's lists."""
    most = 1000 * draw(20, 400)
    least = most * draw(20, 50) // 100
    ramp = most // draw(2, 6)
    up, down, on, price, start, share = draw(1, 8), draw(1, 8), draw(0, 2) > 0, draw(15, 60), draw(1, 50), draw(0, 100)
    level = least + (most - least) * share // 100
    points, cost = [(least, 1000 * price * least)], 1000 * price * least
    for i in range(1, 4):
        at = least + (most - least) * i // 3
        cost += 100 * price * (10 + i) * (at - points[-1][0])
        points.append((at, cost))
    fields = {
        "must_run": 0,
        "power_output_minimum": least / 1000,
        "power_output_maximum": most / 1000,
        "ramp_up_limit": ramp / 1000,
        "ramp_down_limit": ramp / 1000,
        "ramp_startup_limit": (least + ramp) / 1000,
        "ramp_shutdown_limit": (least + ramp) / 1000,
        "time_up_minimum": up,
        "time_down_minimum": down,
        "power_output_t0": level / 1000 if on else 0,
        "unit_on_t0": int(on),
        "time_up_t0": 24 if on else 0,
        "time_down_t0": 0 if on else 24,
        "startup": [{"lag": down + more, "cost": 100 * start * k} for more, k in ((0, 1), (4, 2), (12, 3))],
        "piecewise_production": [{"mw": at / 1000, "cost": money / 1e6} for at, money in points],
    }
    step = min(most - level, ramp) // 2
    high = level + step
    kept = min(most - high, ramp - step)
    power = [high if 8 <= t % 24 <= 19 else level for t in range(PERIODS)]
    lists = {"on": [int(on)] * PERIODS, "power": [x * on for x in power], "reserve": [kept * on] * PERIODS}
    return fields, lists


def make(number):
    """The case and the schedule, as what JSON holds."""
    draw = Pcg32(number).draw
    units = {f"T{i:02}": thermal(draw) for i in range(1, 74)}
    others = {}
    for i in range(1, 82):
        size = 1000 * draw(5, 100)
        others[f"R{i:02}"] = [size * draw(0, 100) // 100 for _ in range(PERIODS)]
    supply = [
        sum(lists["power"][t] for _, lists in units.values()) + sum(most[t] for most in others.values())
        for t in range(PERIODS)
    ]
    reserve = sum(lists["reserve"][0] for _, lists in units.values()) * 9 // 10
    case = {
        "time_periods": PERIODS,
        "demand": [x / 1000 for x in supply],
        "reserves": [reserve / 1000] * PERIODS,
        "thermal_generators": {name: fields for name, (fields, _) in units.items()},
        "renewable_generators": {
            name: {"power_output_minimum": [0] * PERIODS, "power_output_maximum": [x / 1000 for x in most]}
            for name, most in others.items()
        },
    }
    return case, {"thermal": {name: lists for name, (_, lists) in units.items()}, "renewable": others}
