"""Names beside dots of a map, where they stand on no other dot or name if there is such a place."""
import math
from dataclasses import dataclass

from matplotlib.axes import Axes
from matplotlib.text import Annotation
from matplotlib.transforms import Bbox

# To the right, to the left, above and below: a direction, and how the text stands there.
SIDES = ((1, 0, "left", "center"), (-1, 0, "right", "center"), (0, 1, "center", "bottom"), (0, -1, "center", "top"))
GAP = 3.0


@dataclass(frozen=True)
class Dot:
    """A point of a map, the area of its dot in square points, and its name."""
    x: float
    y: float
    area: float
    name: str

    @property
    def radius(self) -> float:
        return math.sqrt(self.area / math.pi)


def name_dots(axes: Axes, dots: list[Dot], others: list[Dot], colour: str) -> None:
    """Names the dots. The others are not named, but no name is to stand on them."""
    axes.figure.draw_without_rendering()
    taken = [box_of(axes, dot) for dot in [*dots, *others]] + [text.get_window_extent() for text in axes.texts]
    for dot in dots:
        taken.append(name_dot(axes, dot, taken, colour))


def box_of(axes: Axes, dot: Dot) -> Bbox:
    """The square round a dot, in pixels."""
    x, y = axes.transData.transform((dot.x, dot.y))
    half = dot.radius * axes.figure.dpi / 72
    return Bbox.from_extents(x - half, y - half, x + half, y + half)


def name_dot(axes: Axes, dot: Dot, taken: list[Bbox], colour: str) -> Bbox:
    """Names a dot at the first side that is free, else to its right; gives where the name stands."""
    for side in SIDES:
        text = beside(axes, dot, side, colour)
        box = text.get_window_extent()
        if not any(box.overlaps(other) for other in taken):
            return box
        text.remove()
    return beside(axes, dot, SIDES[0], colour).get_window_extent()


def beside(axes: Axes, dot: Dot, side: tuple[int, int, str, str], colour: str) -> Annotation:
    across, up, horizontal, vertical = side
    reach = dot.radius + GAP
    return axes.annotate(dot.name, (dot.x, dot.y), (across * reach, up * reach), textcoords="offset points", ha=horizontal,
                         va=vertical, fontsize=8, color=colour, linespacing=1.05, zorder=5)
