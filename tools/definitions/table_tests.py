"""The two tests of a table of duties, computed fast.

The definitions of `sched_tests` look at one window after another, up to 10,000,000 of them. These functions find the same
windows by leaps over those that cannot be the answer. check/tools/table_tests compares both on small tables.

A duty has the fields name, cost, period, deadline, blocking and priority.
"""
from bisect import bisect_left
from collections import namedtuple

Duty = namedtuple("Duty", "name cost period deadline blocking priority")

LONGEST = 10_000_000
SCALE = 1 << 40


def asked_in(window, duties):
    """What duties ask for in a window that begins with a release of each."""
    return sum(d.cost * -(-window // d.period) for d in duties)


def floor_from(window, own, duties):
    """A length below which no window from this one on is enough, or None where none ever is.

    A duty whose period is as long as this window asks at least once, any other for its share of the longer window."""
    once = own + sum(d.cost for d in duties if d.period >= window)
    share = sum(d.cost * SCALE // d.period for d in duties if d.period < window)
    if share > SCALE or share == SCALE and once > 0:
        return None
    if share == SCALE:
        return window
    return -(-once * SCALE // (SCALE - share))


def least_enough(own, duties, most):
    """The least window, from 1 to the most, in which `own` and what the duties ask for fit; or None."""
    window = 1
    while window <= most:
        need = own + asked_in(window, duties)
        if need <= window:
            return window
        floor = floor_from(window, own, duties)
        if floor is None:
            return None
        window = max(need, floor)
    return None


def rivals(duties, place):
    """The other duties that come first: those of at least the priority of the one at a place."""
    level = duties[place].priority
    return [d for k, d in enumerate(duties) if k != place and d.priority >= level]


def response_of(duties, place):
    """The response time of the duty at a place, or None where it may miss its deadline."""
    own = duties[place]
    return least_enough(own.cost + own.blocking, rivals(duties, place), own.deadline)


def busy_of(duties, most=LONGEST):
    """The busy period, or None where there is none up to the most."""
    return least_enough(0, duties, most)


def demand(duties, window):
    """What has to be done by the end of a window that begins with a release of each duty."""
    return sum(d.cost * (1 + (window - d.deadline) // d.period) for d in duties if d.deadline <= window)


def last_deadline(duties, window):
    """The last deadline in a window, 0 where there is none."""
    return max((window - (window - d.deadline) % d.period for d in duties if d.deadline <= window), default=0)


def is_over_up_to(duties, most):
    """Whether some window up to the most is overrun.

    Demand never falls, so where it is D <= W at W, no window from D to W is overrun; it goes on below D."""
    window = last_deadline(duties, most)
    while window > 0:
        due = demand(duties, window)
        if due > window:
            return True
        window = last_deadline(duties, min(due, window - 1))
    return False


def first_over_of(duties, most=LONGEST):
    """The least window that is overrun, or None where there is none up to the most."""
    busy = busy_of(duties, most)
    # where no window up to the busy period is overrun, none is
    if busy is not None and not is_over_up_to(duties, busy):
        return None
    if busy is None and not is_over_up_to(duties, most):
        return None
    return bisect_left(range(most + 1), True, key=lambda window: is_over_up_to(duties, window))


def rta_lines(duties):
    """What `rta` prints, and whether a duty misses."""
    found = [response_of(duties, place) for place in range(len(duties))]
    lines = [f"{d.name} {'miss' if r is None else r}" for d, r in zip(duties, found)]
    return lines, None in found


def demand_lines(duties):
    """What `demand` prints, and whether a window is overrun."""
    over = first_over_of(duties)
    if over is not None:
        return [f"over {over} {demand(duties, over)}"], True
    busy = busy_of(duties)
    return [f"within {LONGEST}", f"busy {'none' if busy is None else busy}"], False
