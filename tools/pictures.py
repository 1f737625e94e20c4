"""Shared by the tools that draw pictures: the width of a text, room for labels, shortened names, and the report of a wrong input."""
import os, sys
from html import escape

# Widths of characters in parts of the height of the font, as DejaVu Sans has them, which is wider than most.
NARROW = {**dict.fromkeys("iIlj|'", 0.29), **dict.fromkeys(" ,.:;/\\()[]{}\"!-ftr", 0.4), **dict.fromkeys("mwMW%@", 0.98)}
USUAL, CAPITAL = 0.636, 0.72


# The longest name that is drawn whole, in characters.
LONGEST_NAME = 28


class Wrong(Exception):
    """An error in an input, in words for its author."""


class UsageError(Exception):
    """The arguments of a tool are not those that it takes."""


def shortened(name):
    """Returns a name that is too long without its middle: method names differ at both ends."""
    half = (LONGEST_NAME - 1) // 2
    return name if len(name) <= LONGEST_NAME else f"{name[:half]}…{name[-half:]}"


def text_at(x, y, text, name="", whole=None):
    """Returns a text centred at a place. `dy` centres it vertically, since few renderers know `dominant-baseline`. If `whole` is
    given, it is shown while the mouse is over the text."""
    of_class = f' class="{name}"' if name else ""
    drawn = f'<text{of_class} x="{x:.4g}" y="{y:.4g}" dy=".35em">{escape(text)}</text>'
    return drawn if whole in (None, text) else f"<g><title>{escape(whole)}</title>{drawn}</g>"


def width(text, size):
    """Returns the width of a text in a font of this size, both in pixels."""
    return size * sum(NARROW.get(it, CAPITAL if it.isupper() else USUAL) for it in text)


def meets(one, other):
    """Returns the area in which two boxes (left, top, right, bottom) overlap, in square pixels."""
    across = min(one[2], other[2]) - max(one[0], other[0])
    down = min(one[3], other[3]) - max(one[1], other[1])
    return across * down if across > 0 and down > 0 else 0


class Room:
    """The boxes that are taken in a picture."""

    def __init__(self):
        self.taken = []

    def take(self, x, y, wide, high):
        """Takes the box of this width and height around a place."""
        self.taken.append((x - wide / 2, y - high / 2, x + wide / 2, y + high / 2))

    def find(self, places, wide, high):
        """Takes a box around the first of the places where it meets none, or where it meets least, and returns the place."""

        def over(place):
            x, y = place
            box = (x - wide / 2, y - high / 2, x + wide / 2, y + high / 2)
            return sum(meets(box, it) for it in self.taken)

        best = min(places, key=over)
        self.take(*best, wide, high)
        return best


def run(main, name, usage):
    """Runs a tool that draws. Prints its text for --help, and errors in its arguments (status 2) or its input (status 1)."""
    words = sys.argv[1:]
    try:
        print(usage if words in (["--help"], ["-h"]) else main(words), flush=True)
        return 0
    except UsageError:
        print(usage, file=sys.stderr)
        return 2
    except Wrong as error:
        print(f"{name}: {error}", file=sys.stderr)
    except BrokenPipeError:
        os.dup2(os.open(os.devnull, os.O_WRONLY), sys.stdout.fileno())
    except OSError as error:
        print(f"{name}: {error.filename}: {error.strerror}", file=sys.stderr)
    return 1
