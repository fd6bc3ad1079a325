"""A frequency axis in pixels, with wide empty stretches of the band left out, and labels spread along it."""

GAP = 30            # pixels of a stretch left out
TICK_STEP = 60      # pixels between two ticks, at least
CHARACTER = 6.7


class Axis:
    """Places the frequencies of these stretches, each (low, high), between two edges; one scale for every part of the band."""

    def __init__(self, stretches, left, right):
        self.left, self.right = left, right
        parts = _parts(sorted(stretches))
        covered = sum(high - low for low, high in parts)
        pad = max(0.02 * covered, 100 if parts[-1][1] > 1000 else 1)
        self.parts = [(low - pad, high + pad) for low, high in parts]
        room = right - left - GAP * (len(parts) - 1)
        self.scale = room / sum(high - low for low, high in self.parts)
        self.starts, x = [], left
        for low, high in self.parts:
            self.starts.append(x)
            x += (high - low) * self.scale + GAP

    def x(self, khz):
        for (low, high), start in zip(self.parts, self.starts):
            if khz <= high:
                return start + (khz - low) * self.scale
        raise ValueError(khz)

    def seen(self, low, high):
        """Where a stretch of the band is drawn: (left, right) of its share of each part."""
        shares = [(max(low, begin), min(high, end), begin, start) for (begin, end), start in zip(self.parts, self.starts)]
        return [(start + (first - begin) * self.scale, start + (last - begin) * self.scale) for first, last, begin, start in shares if first < last]

    def runs(self):
        """Where the axis is drawn: (left, right) of each part."""
        return [(start, start + (high - low) * self.scale) for (low, high), start in zip(self.parts, self.starts)]

    def breaks(self):
        """The middle of each stretch left out."""
        return [start - GAP / 2 for start in self.starts[1:]]

    def ticks(self):
        """(x, label) of each tick; labels keep clear of each other."""
        step = _round_step(TICK_STEP / self.scale)
        decimals = 0 if step % 1000 == 0 else 1 if step % 100 == 0 else 2 if step % 10 == 0 else 3
        found, end = [], float("-inf")
        for (low, high) in self.parts:
            first = -int(-low // step)
            inside = [step * i for i in range(first, int(high // step) + 1)]
            for khz in inside or [round((low + high) / 2)]:
                label = f"{khz / 1000:.{decimals if inside else 3}f}"
                x, half = self.x(khz), CHARACTER * len(label) / 2
                if x - half > end + 6 and khz >= 0:
                    found.append((x, label))
                    end = x + half
        return found


def _parts(stretches):
    """The band as (low, high) parts: split where a gap between stretches is wide beside all that is left."""
    gaps, (low, high) = [], stretches[0]
    for start, end in stretches:
        if start > high:
            gaps.append((start - high, high, start))
        high = max(high, end)
    left, cuts = high - low, []
    for gap, *cut in sorted(gaps, reverse=True)[:6]:
        if gap < 3000 or gap < 0.3 * (left - gap):
            break
        cuts.append(cut)
        left -= gap
    ends = [low] + [edge for cut in sorted(cuts) for edge in cut] + [high]
    return list(zip(ends[::2], ends[1::2]))


def _round_step(least):
    """The least 1, 2 or 5 times a power of ten that is not below this many kHz."""
    power = 1
    while True:
        for digit in (1, 2, 5):
            if digit * power >= least:
                return digit * power
        power *= 10


def spread(wanted, step, left, right):
    """Places in the order of the wanted ones, a step apart, inside the edges, as near to the wanted ones as that allows."""
    if len(wanted) > 1:
        step = min(step, (right - left) / (len(wanted) - 1))
    blocks = []  # (sum, count) of wanted places less their index times the step, means rising
    for index, place in enumerate(wanted):
        blocks.append((place - index * step, 1))
        while len(blocks) > 1 and blocks[-2][0] / blocks[-2][1] > blocks[-1][0] / blocks[-1][1]:
            last, count = blocks.pop()
            blocks[-1] = (blocks[-1][0] + last, blocks[-1][1] + count)
    most = right - step * (len(wanted) - 1)
    means = [min(max(total / count, left), most) for total, count in blocks for _ in range(count)]
    return [mean + index * step for index, mean in enumerate(means)]
