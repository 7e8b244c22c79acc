"""The groups of runs that end alike, and the first row at which two of them part."""

from collections import Counter
from collections.abc import Callable
from dataclasses import dataclass, field, replace

from library.network import Network
from library.reading import Row, Run, read_run
from library.rowwords import row_words

from .jobs import Job
from .runs import OK, Outcome, trace_of


@dataclass
class Group:
    """Runs that end alike; the first of them has the least place and seed."""

    lines: tuple[str, ...]
    runs: list[Outcome] = field(default_factory=list)


def groups_of(outcomes: list[Outcome]) -> list[Group]:
    """The groups, in the order of their first runs; the order in which the outcomes came doesn't matter."""
    found: dict[tuple[str, ...], Group] = {}
    for outcome in sorted(outcomes, key=lambda one: (one.place, one.seed)):
        found.setdefault(outcome.lines, Group(outcome.lines)).runs.append(outcome)
    return list(found.values())


def table_text(groups: list[Group], factors: list[str], jobs: dict[tuple[int, int], Job], most: int) -> str:
    """The table, what each group ends with, and where the first group and each other one part."""
    lines = head_lines(groups, factors)
    for number, group in enumerate(groups[:most], 1):
        lines += ["", f"group {number} ends with:"]
        lines += ["  " + line for line in told_lines(groups, number)]
    if len(groups) > most:
        lines += ["", f"{len(groups) - most} more groups (--most {len(groups)} shows them)"]
    for number, group in enumerate(groups[1:most], 2):
        lines += ["", *parting_lines(groups[0], group, number, jobs)]
    return "\n".join(lines) + "\n"


def head_lines(groups: list[Group], factors: list[str]) -> list[str]:
    """The table: of each group how many runs it has, its least seed, and how many runs by factor."""
    runs = sum(len(group.runs) for group in groups)
    ends = "all end alike" if len(groups) == 1 else f"{len(groups)} groups by what the routers end with"
    rows = [["group", "runs", "least seed", *(f"factor {one}" for one in factors)]]
    for number, group in enumerate(groups, 1):
        counts = Counter(run.place for run in group.runs)
        least = min(run.seed for run in group.runs)
        rows.append([str(number), f"{len(group.runs):,}", str(least), *(f"{counts[n]:,}" for n in range(len(factors)))])
    widths = [max(len(row[place]) for row in rows) for place in range(len(rows[0]))]
    table = ["  ".join(cell.rjust(width) for cell, width in zip(row, widths)) for row in rows]
    return [f"{runs:,} runs: {ends}", "", *table]


def told_lines(groups: list[Group], number: int) -> list[str]:
    """What a group ends with: of the first all, of another what isn't as in the first."""
    first, here = groups[0].lines, groups[number - 1].lines
    if number == 1:
        return list(first) or ["nothing"]
    gone = ["not " + line for line in first if line not in here]
    return [line for line in here if line not in first] + gone


def parting_lines(first: Group, other: Group, number: int, jobs: dict[tuple[int, int], Job]) -> list[str]:
    """Where the runs of two groups part; of one factor if both have runs of it."""
    one, two = pair_of(first, other)
    names = [f"seed {run.seed}, factor {run.factor}" for run in (one, two)]
    runs = [run_of(jobs[run.place, run.seed]) for run in (one, two)]
    if None in runs:
        return [f"group 1 ({names[0]}) and group {number} ({names[1]}): a run without a whole trace can't be compared"]
    lines = [f"group 1 ({names[0]}) and group {number} ({names[1]}), ties left out:"]
    if one.place != two.place:
        lines.append("  their delays differ, so their moments do")
    lines += part_lines("the first row that differs", runs, first_other(runs, bare))
    runs = in_one_order(runs)
    what = "the first that isn't just in another order within its moment"
    return lines + part_lines(what, runs, first_other(runs, unordered))


def pair_of(first: Group, other: Group) -> tuple[Outcome, Outcome]:
    """The least run of each group, of the first factor that both have."""
    for one in first.runs:
        for two in other.runs:
            if one.place == two.place:
                return one, two
            if two.place > one.place:
                break
    return first.runs[0], other.runs[0]


def run_of(job: Job) -> Run | None:
    """The run of a job with its trace, or None if it ended otherwise."""
    status, text, _ = trace_of(job)
    return read_run(text, need="trace") if status == OK else None


def bare(row: Row) -> tuple:
    """A row without its tie."""
    group, total, kind, _, origin, seq = row.event[0]
    return (group, total, kind, origin, seq), *row.event[1:]


def unordered(row: Row) -> tuple:
    """A row without its tie and its sender's number, which hang on the order within a moment."""
    group, total, kind, _, origin, _ = row.event[0]
    return (group, total, kind, origin), *row.event[1:]


def first_other(runs: list[Run], told: Callable[[Row], tuple]) -> int | None:
    """The place of the first row that differs in what is told of it, from 0, or None."""
    left, right = [[told(row) for row in run.rows] for run in runs]
    for place, (one, two) in enumerate(zip(left, right)):
        if one != two:
            return place
    return None if len(left) == len(right) else min(len(left), len(right))


def in_one_order(runs: list[Run]) -> list[Run]:
    """The runs with the rows of each moment in one order, so that another order isn't a difference."""
    return [replace(run, rows=sorted(run.rows, key=unordered)) for run in runs]


def part_lines(what: str, runs: list[Run], place: int | None) -> list[str]:
    """The two rows at a place, in words."""
    if place is None:
        return [f"  {what}: none"]
    return [f"  {what}:"] + [f"    {row_line(run.network, run.rows, place)}" for run in runs]


def row_line(network: Network, rows: list[Row], place: int) -> str:
    """A row in words, with its number in the trace."""
    if place >= len(rows):
        return "no row any more"
    row = rows[place]
    seconds = network.seconds(network.moment(row.group, row.sum))
    return f"row {row.number}, {seconds} s, {network.names[row.router]}: {row_words(network, row)}"
