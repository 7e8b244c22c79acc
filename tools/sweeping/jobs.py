"""Seeds and factors on delays, and the case text of each run."""

from dataclasses import dataclass, replace
from fractions import Fraction

from library.tool import BadInput
from model.case import MAX_DELAY, Case, Link
from model.casetext import write_case
from model.numbers import U64_MAX

MOST_RUNS = 1_000_000


@dataclass(frozen=True)
class Job:
    """A run: its case text, its seed, its factor and that one's place in the list, and the program's path."""

    case: bytes
    seed: int
    factor: str
    place: int
    program: str


def read_seeds(text: str) -> list[int]:
    """The seeds of `0-99`, `1,5,9` or `0-9,100`, in ascending order, each once."""
    seeds: set[int] = set()
    for part in text.split(","):
        first, dash, last = part.partition("-")
        if not first.isdecimal() or (dash and not last.isdecimal()):
            raise BadInput(f'seeds are numbers and ranges, as 0-99 or 1,5,9; this is "{part}"')
        low, high = int(first), int(last) if dash else int(first)
        if low > high or high > U64_MAX or high - low >= MOST_RUNS:
            raise BadInput(f'"{part}": a range goes up, ends below 2^64, and has at most {MOST_RUNS:,} seeds')
        seeds.update(range(low, high + 1))
    return sorted(seeds)


def read_factors(text: str) -> list[tuple[str, Fraction]]:
    """The factors of `1,2`, `0.5` or `1/3`, each with its spelling."""
    found = []
    for part in text.split(","):
        try:
            factor = Fraction(part)
        except (ValueError, ZeroDivisionError) as error:
            raise BadInput(f'factors are numbers, as 1,2,0.5 or 1/3; this is "{part}"') from error
        if factor <= 0:
            raise BadInput(f"a factor is above 0: {part}")
        found.append((part, factor))
    return found


def jobs_of(case: Case, seeds: list[int], factors: list[tuple[str, Fraction]], program: str) -> list[Job]:
    """All runs: the factors in their order, and for each of them the seeds in theirs."""
    if len(seeds) * len(factors) > MOST_RUNS:
        raise BadInput(f"{len(seeds) * len(factors):,} runs; at most {MOST_RUNS:,} are taken")
    return [Job(with_seed(case, links_by(case, factor), seed), seed, spelling, place, program)
            for place, (spelling, factor) in enumerate(factors) for seed in seeds]


def links_by(case: Case, factor: Fraction) -> list[Link]:
    """The links, each delay multiplied and rounded, at least 1."""
    links = [replace(link, delay=max(1, round(link.delay * factor))) for link in case.links]
    for link in links:
        if link.delay > MAX_DELAY:
            names = " ".join(case.routers[end].name.decode() for end in (link.a, link.b))
            raise BadInput(f"factor {factor}: link {names} has delay {link.delay:,}, above {MAX_DELAY:,}")
    return links


def with_seed(case: Case, links: list[Link], seed: int) -> bytes:
    """The case text with these links and this seed."""
    return write_case(replace(case, links=links, seed=seed))
