"""The parts of a comparison.

Each has `COUNT`, how many inputs it compares at least; `FIRST`, what it
compares once; and `PIECES`, of which it draws the rest.
"""

from . import checks, debug, limits, live, protocols, replays, schedules, texts, threads, words

PARTS = {"texts": texts, "checks": checks, "replays": replays, "schedules": schedules, "threads": threads,
         "words": words, "protocols": protocols, "live": live, "debug": debug, "limits": limits}
DEFAULT = tuple(name for name in PARTS if name != "limits")
