"""What coz-study says, and the two ways in which it stops."""


class Stop(Exception):
    """Something stands in the way; the text says what."""


class Wrong(Exception):
    """The words of the command line are wrong; the text says how."""


def say(text):
    print(text, flush=True)


def span(seconds):
    """A span of time in words."""
    if seconds < 100:
        return f"{seconds:.0f} s"
    return f"{seconds / 60:.0f} min" if seconds < 6000 else f"{seconds / 3600:.1f} h"


def several(number, noun):
    """A number and its noun, which gets an s if they are several."""
    return f"{number:,} {noun}{'' if number == 1 else 's'}"


def listed(items, most):
    """The first of some items, and how many more there are."""
    items = list(items)
    more = f" and {len(items) - most:,} more" if len(items) > most else ""
    return ", ".join(items[:most]) + more


def change(old, new, more, less, per_cent=None):
    """Two numbers, and how much more or less the second one is."""
    by = per_cent if per_cent is not None else 100 * (new / old - 1) if old else 0.0
    if abs(by) >= 0.005:
        word = f"{abs(by):.2f} per cent {more if by > 0 else less}"
    else:
        word = "the same" if old == new else "nearly the same"
    return f"{old:,} -> {new:,}, {word}"
