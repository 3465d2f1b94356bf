"""Small pictures of curves: the values of a row over the speedups, with the band of their intervals."""
import html

from study.curves import margin

WIDTH, HEIGHT, EDGE = 140, 40, 2
GREATEST_SPEEDUP = 100


def ends_of(row):
    """Speedup, value, and both ends of the interval of each step of a row, in per cent; at the speedup 0 all are 0."""
    steps = [(it.speedup, it.value / 100, margin(it.error) / 100) for it in row.steps]
    return [(0, 0.0, 0.0, 0.0), *((speedup, value, value - half, value + half) for speedup, value, half in steps)]


class Axis:
    """The axis of values that the pictures of a table share."""

    def __init__(self, rows):
        found = [it for row in rows for step in ends_of(row) for it in step[2:]]
        self.low, self.high = min(found, default=0), max(found, default=0)
        if self.low == self.high:
            self.high = self.low + 1

    def at(self, speedup, value):
        across = EDGE + (WIDTH - 2 * EDGE) * speedup / GREATEST_SPEEDUP
        down = EDGE + (HEIGHT - 2 * EDGE) * (self.high - value) / (self.high - self.low)
        return f"{across:.1f},{down:.1f}"

    def line(self, points):
        return " ".join(self.at(*it) for it in points)


def picture_of(row, axis):
    """The picture of a row, with a text for readers of screens."""
    ends = ends_of(row)
    band = [*((it[0], it[3]) for it in ends), *((it[0], it[2]) for it in reversed(ends))]
    told = "; ".join(f"{value:.1f}{f' ({low:.1f} to {high:.1f})' if row.error is not None else ''} at {speedup}"
                     for speedup, value, low, high in ends[1:])
    told = html.escape(f"Gain of {row.label} in per cent: {told}", quote=True)
    return (f'<svg viewBox="0 0 {WIDTH} {HEIGHT}" width="{WIDTH}" height="{HEIGHT}" role="img" aria-label="{told}"><title>{told}</title>'
            f'<polyline class="zero" points="{axis.line([(0, 0), (GREATEST_SPEEDUP, 0)])}"/>'
            f'<polygon points="{axis.line(band)}"/>'
            f'<polyline points="{axis.line([it[:2] for it in ends])}"/></svg>')
