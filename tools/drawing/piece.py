"""A piece of a chart as SVG, for a report."""

from html import escape

from library.network import Network
from library.tool import BadInput

from .timeline import AGAIN, PASSED_OVER, ROUTES, SENT_AGAIN, TAKEN_BACK, UNSENT, Item, label_of

ROW, HEAD, GUTTER, COLUMN, EDGE, LETTER = 20, 44, 100, 110, 16, 6.2
MOST_ROWS, MOST_TEXT = 400, 90
# Of the palette of Okabe and Ito, and the dashes by which kinds are told without colours.
STYLES = {"tick": ("#8a8a8a", ""), "command": ("#111111", ""), "down": ("#b34700", ""), "up": ("#00734f", ""),
          "hello": ("#2f8fc9", "2 3"), "update": ("#c75300", ""), "acknowledgement": ("#008a63", "7 3"),
          "request": ("#b3598c", "2 3"), "response": ("#b87a00", ""), "flooded": ("#0067a3", ""),
          "malformed": ("#111111", "9 3 2 3")}
LOST = "#9a9a9a"


def read_range(text: str) -> tuple[int, int]:
    """The rows of `FROM-TO`, or of `ROW`."""
    first, dash, last = text.partition("-")
    if not first.isdecimal() or (dash and not last.isdecimal()) or not 1 <= int(first) <= int(last or first):
        raise BadInput(f"--svg {text}: rows are FROM-TO, as 10-40, from 1")
    return int(first), int(last or first)


def chosen_items(items: list[Item], first: int, last: int, with_ticks: bool) -> list[Item]:
    """The rows of the range, and what was taken back among them."""
    places = [place for place, item in enumerate(items) if first <= item.number <= last]
    if not places:
        raise BadInput(f"--svg {first}-{last}: the trace has no such row")
    found = [item for item in items[places[0]:places[-1] + 1] if with_ticks or item.kind != "tick"]
    if not found:
        raise BadInput(f"--svg {first}-{last}: these rows are ticks; --ticks draws them")
    if len(found) > MOST_ROWS:
        raise BadInput(f"--svg {first}-{last}: {len(found)} rows, and a piece has at most {MOST_ROWS}")
    return found


def piece_svg(network: Network, items: list[Item], first: int, last: int, with_ticks: bool, title: str) -> str:
    """The picture: routers as columns, one row below the other."""
    chosen = chosen_items(items, first, last, with_ticks)
    names = network.names
    right = GUTTER + COLUMN * len(names)
    texts = [shortened(f"{names[item.router]}: {item.words}") for item in chosen]
    width = right + EDGE + max(len(text) for text in texts) * LETTER + EDGE
    height = HEAD + ROW * len(chosen) + EDGE
    lines = [f'<svg xmlns="http://www.w3.org/2000/svg" viewBox="0 0 {width:.0f} {height}" width="{width:.0f}" '
             f'height="{height}" font-family="Helvetica, Arial, sans-serif" font-size="11">',
             f"<title>{escape(title)}</title>", f'<rect width="{width:.0f}" height="{height}" fill="#ffffff"/>']
    lines += columns(names, height)
    for place, (item, text) in enumerate(zip(chosen, texts)):
        lines += row_lines(network, chosen, place, text, right)
    return "\n".join(lines + ["</svg>"]) + "\n"


def shortened(text: str) -> str:
    """A text of at most so many letters."""
    return text if len(text) <= MOST_TEXT else text[:MOST_TEXT - 2] + ".."


def x_of(router: int) -> float:
    """Where a router's column is."""
    return GUTTER + COLUMN * (router + 0.5)


def columns(names: list[str], height: int) -> list[str]:
    """The routers' names and lines."""
    lines = ['<g fill="#6b6b6b" text-anchor="end"><text x="40" y="28">row</text><text x="88" y="28">second</text></g>']
    for router, name in enumerate(names):
        x = x_of(router)
        lines.append(f'<text x="{x}" y="28" text-anchor="middle" font-size="13">{escape(name)}</text>')
        lines.append(f'<line x1="{x}" y1="36" x2="{x}" y2="{height}" stroke="#d9d9d9"/>')
    return lines


def row_lines(network: Network, chosen: list[Item], place: int, text: str, right: float) -> list[str]:
    """A row: its number, its time if it is a new one, its sign or arrow, and its text."""
    item, y = chosen[place], HEAD + ROW * (place + 0.5)
    lines = [f'<text x="40" y="{y + 4}" text-anchor="end" fill="#6b6b6b">{item.number or "–"}</text>']
    if place == 0 or chosen[place - 1].moment != item.moment:
        lines.append(f'<text x="88" y="{y + 4}" text-anchor="end">{network.seconds(item.moment)}</text>')
        lines.append(f'<line x1="46" y1="{y - ROW / 2}" x2="92" y2="{y - ROW / 2}" stroke="#d9d9d9"/>')
    colour, dashes = STYLES[item.kind]
    if item.flags & (TAKEN_BACK | UNSENT):
        colour = LOST
    if item.sender < 0:
        lines += sign(item.kind, x_of(item.router), y, colour)
    else:
        lines += arrow(chosen, place, y, colour, dashes)
    lines += marks(item, x_of(item.router), y, colour)
    return lines + [f'<text x="{right + EDGE}" y="{y + 4}">{escape(text)}</text>']


def marks(item: Item, x: float, y: float, colour: str) -> list[str]:
    """The marks of what became of a row."""
    lines = []
    if item.flags & PASSED_OVER:
        lines.append(f'<path d="M{x - 3} {y - 3}l6 6m0 -6l-6 6" stroke="{colour}" stroke-width="1.5"/>')
    if item.flags & (TAKEN_BACK | UNSENT):
        lines.append(f'<path d="M{x - 5} {y - 5}l10 10m0 -10l-10 10" stroke="#1b1b1b" stroke-width="1.8"/>')
    if item.flags & (AGAIN | SENT_AGAIN):
        lines.append(f'<circle cx="{x}" cy="{y}" r="7" fill="none" stroke="#1b1b1b" stroke-width="1.4"/>')
    if item.flags & ROUTES:
        side = x - 11 if item.sender > item.router else x + 11
        lines.append(f'<rect x="{side - 6}" y="{y - 6}" width="12" height="12" rx="2" fill="#1b1b1b"/>')
        lines.append(f'<text x="{side}" y="{y + 3.5}" text-anchor="middle" fill="#ffffff" font-size="9">R</text>')
    return lines


def sign(kind: str, x: float, y: float, colour: str) -> list[str]:
    """What stands for a row that isn't a message."""
    shapes = {"command": f"M{x} {y - 6}l6 6l-6 6l-6 -6z", "up": f"M{x} {y - 6}l6 10h-12z",
              "down": f"M{x} {y + 6}l6 -10h-12z"}
    if kind in shapes:
        return [f'<path d="{shapes[kind]}" fill="{colour}"/>']
    return [f'<circle cx="{x}" cy="{y}" r="2.5" fill="{colour}"/>']


def tail_y(chosen: list[Item], place: int) -> float:
    """The height at which a message was sent: at the row that sent it, or between the rows around its sending."""
    item = chosen[place]
    for other, one in enumerate(chosen[:place]):
        if one.event == item.cause:
            return HEAD + ROW * (other + 0.5)
    is_above = item.cause is not None and item.cause < chosen[0].event
    before = 0 if is_above else sum(one.moment <= item.sent for one in chosen[:place])
    return HEAD + ROW * before - (4 if before == 0 else 0)


def arrow(chosen: list[Item], place: int, y: float, colour: str, dashes: str) -> list[str]:
    """A message's arrow with its kind beside the head."""
    item = chosen[place]
    x0, x1, y0 = x_of(item.sender), x_of(item.router), tail_y(chosen, place)
    length = max(1.0, ((x1 - x0) ** 2 + (y - y0) ** 2) ** 0.5)
    dx, dy = (x1 - x0) / length, (y - y0) / length
    back, wide = (x1 - 8 * dx, y - 8 * dy), (3.5 * dy, -3.5 * dx)
    corners = [(x1, y), (back[0] - wide[0], back[1] - wide[1]), (back[0] + wide[0], back[1] + wide[1])]
    points = " ".join(f"{a:.1f},{b:.1f}" for a, b in corners)
    label, left = label_of(item.kind), x0 < x1
    anchor = "end" if left else "start"
    dash = f' stroke-dasharray="{dashes}"' if dashes else ""
    return [f'<line x1="{x0}" y1="{y0:.1f}" x2="{x1 - 5 * dx:.1f}" y2="{y - 5 * dy:.1f}" stroke="{colour}" '
            f'stroke-width="1.3"{dash}/>', f'<polygon points="{points}" fill="{colour}"/>',
            f'<text x="{x1 - 12 if left else x1 + 12:.1f}" y="{y + 3.5:.1f}" text-anchor="{anchor}" fill="{colour}" '
            f'stroke="#ffffff" stroke-width="3" paint-order="stroke" font-size="10">{label}</text>']
