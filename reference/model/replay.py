"""`rerun` of a journal and the schedule of `shake`."""

from .events import draw
from .world import World


def rerun(case, steps):
    """How a journal ends, `ok`, `cut`, `open` or `illegal`, and the number of the last step."""
    world = World(case)
    for number, step in enumerate(steps, 1):
        if not world.enabled(step):
            return "illegal", number
        world.take(step)
        if step[0] == "commit" and world.is_cut():
            return "cut", number
    return ("open" if world.open_end() else "ok"), len(steps)


def shake(case, number, most):
    """How the schedule of a number ends, `ok`, `cut` or `open`, and the steps that it takes."""
    world, steps, h = World(case), [], number
    while len(steps) < most:
        listed = world.listed()
        if not listed:
            break
        h = draw(h)
        step = listed[h % len(listed)]
        world.take(step)
        steps.append(step)
        if step[0] == "commit" and world.is_cut():
            return "cut", steps
    return ("open" if world.open_end() else "ok"), steps
