"""The picture of a link plan: link windows as bars and ends as marks over the rounds.

Rounds go across: round u is from u - 1 to u in the coordinates of everything drawn over them. Each station has a lane
with its broadcasts and under it a row for each station that it may hear.
"""

from svg import px, tag

from .plans import counted, windows

LEFT, RIGHT, TOP = 84, 150, 104
WIDTH = 1400                  # of the rounds, where the columns are neither at their widest nor at their narrowest
WIDEST, NARROWEST = 22, 0.7   # column, in pixels
STEPS = (1, 2, 5, 10, 20, 50, 100, 200, 500)
ROOM = 34                     # at least, for a number on the axis
RELAY = "#d55e00"

STYLE = """
text{font-family:'DejaVu Sans',Verdana,Arial,sans-serif;fill:#222}
.head{font-size:17px;font-weight:bold} .note,.legend{font-size:12px;fill:#444}
.round{font-size:11px;text-anchor:middle;fill:#444} .grid{stroke:#dfe2e6;stroke-width:1}
.paper{fill:#fff} .block{fill:#fff} .block.even{fill:#f3f4f6}
.station{font-size:12px;font-weight:bold} .heard{text-anchor:end;fill:#444} .count{font-size:11px;fill:#222}
.window{fill:none;stroke:#56b4e9} .window:hover{stroke:#0072b2}
.broadcast{fill:none;stroke:#009e73;stroke-width:4} .broadcast.open{stroke:#8a939c;stroke-width:1.5}
.ended{fill:none;stroke:#111}
"""


class Layout:
    """Where things stand, in pixels; large groups have narrower rows."""

    def __init__(self, plan):
        self.n, self.rounds = plan.n, plan.rounds
        self.column = max(NARROWEST, min(WIDEST, WIDTH / max(1, self.rounds)))
        self.row = 12 if self.n <= 6 else 6.5
        self.lane = 22 if self.n <= 6 else 17
        self.block = self.lane + self.row * (self.n - 1) + 6
        self.right = LEFT + self.column * self.rounds
        self.width = max(self.right + RIGHT, 1120)
        self.bottom = TOP + self.block * self.n
        self.step = next((step for step in STEPS if step * self.column >= ROOM), STEPS[-1])
        self.tick = min(2.4, max(0.7, 0.5 * self.column)) / self.column  # the width of an end's mark, in rounds

    def top(self, station):
        return TOP + self.block * station

    def line(self, station):
        """The height of a station's broadcasts."""
        return self.top(station) + self.lane / 2 + 1

    def heard_row(self, station, heard):
        """The height of the row in which the station hears the other."""
        return self.top(station) + self.lane + self.row * (heard - (heard > station) + 0.5)

    def over_rounds(self, y, inside):
        """What is drawn in rounds, at this height."""
        return tag("g", {"transform": f"translate({LEFT} {px(y)}) scale({self.column:.4f} 1)"}, inside=inside)


def draw_axis(layout):
    numbers = range(layout.step, layout.rounds + 1, layout.step)
    for number in (*[1] * (layout.rounds > 0 and (layout.step - 1) * layout.column > ROOM * 0.8), *numbers):
        x = LEFT + layout.column * (number - 0.5)
        yield tag("path", {"cls": "grid", "d": f"M{px(x)} {TOP - 4}V{px(layout.bottom + 4)}"})
        for y in (TOP - 8, layout.bottom + 16):
            yield tag("text", {"cls": "round", "x": x, "y": y}, str(number))


def draw_windows(plan, layout, station):
    others = [other for other in range(plan.n) if other != station]
    for other in others:
        found = windows(plan, station, other)
        y = layout.heard_row(station, other)
        yield tag("text", {"cls": "heard", "x": LEFT - 6, "y": y + layout.row * 0.35,
                           "font_size": min(10, layout.row)}, f"hears {other}")
        if found:
            total = sum(last - first + 1 for first, last in found)
            words = f"station {station} hears {other} in {total:,} rounds, in {counted(len(found), 'window')}"
            yield layout.over_rounds(y, [tag("path", {
                "cls": "window", "data_station": station, "data_heard": other, "stroke_width": layout.row * 0.75,
                "d": "".join(f"M{first - 1} 0h{last - first + 1}" for first, last in found)},
                inside=[tag("title", {}, words)])])


def draw_lane(layout, station, ends):
    """The broadcasts of a station: those that end, the one that doesn't, and the ends."""
    y, high, last = layout.line(station), layout.lane * 0.7, ends[-1] if ends else 0
    inside = [tag("path", {"cls": "broadcast open", "d": f"M{max(0, last - 0.5)} 0H{layout.rounds}"})]
    if ends:
        words = f"station {station}: {counted(len(ends), 'end')}, the last in round {last}"
        marks = "".join(f"M{number - 0.5} {px(-high / 2)}v{px(high)}" for number in ends)
        inside += [tag("path", {"cls": "broadcast", "d": f"M0 0H{last - 0.5}"}),
                   tag("path", {"cls": "ended", "data_station": station, "stroke_width": f"{layout.tick:.3f}",
                                "d": marks}, inside=[tag("title", {}, words)])]
    yield layout.over_rounds(y, inside)
    yield tag("text", {"cls": "station", "x": 6, "y": y + 4}, f"station {station}")
    count = counted(len(ends), "end") + (f", last in {last}" if ends else "")
    yield tag("text", {"cls": "count", "x": layout.right + 10, "y": y + 4}, count)


def draw_relay(layout, sender, start, hops):
    """A relay: from the sender's line to each row in which a station is heard, and to the line of the hearer."""
    def x(number):
        return LEFT + layout.column * max(0, number - 0.5)
    points, words = [(x(start), layout.line(sender))], [f"from station {sender} in round {start}"]
    for number, heard, hearer in hops:
        points += [(x(number), layout.heard_row(hearer, heard)), (x(number), layout.line(hearer))]
        words.append(f"station {hearer} hears {heard} in round {number}")
    path = "M" + "L".join(f"{px(one)} {px(other)}" for one, other in points)
    yield tag("path", {"cls": "relay", "fill": "none", "stroke": RELAY, "stroke_width": 2.5, "d": path},
              inside=[tag("title", {}, "relay: " + ", ".join(words))])
    for at, (one, other) in enumerate(points):
        yield tag("circle", {"cx": one, "cy": other, "r": 4 if at % 2 else 5, "fill": RELAY if at % 2 == 0 else "#fff",
                             "stroke": RELAY, "stroke_width": 2})


def draw_legend():
    entries = (
        ("a broadcast, and its end",
         [tag("path", {"cls": "broadcast", "d": "M0 0H24"}),
          tag("path", {"cls": "ended", "stroke_width": 2.4, "d": "M24 -7v14"})]),
        ("a broadcast that does not end in the plan", [tag("path", {"cls": "broadcast open", "d": "M0 0H28"})]),
        ("link window: the station of the block hears that of the row",
         [tag("path", {"cls": "window", "stroke_width": 9, "d": "M0 0H28"})]))
    x = LEFT
    for words, inside in entries:
        yield tag("g", {"transform": f"translate({px(x)} 68)"}, inside=inside)
        yield tag("text", {"cls": "legend", "x": x + 40, "y": 72}, words)
        x += 7.2 * len(words) + 56


def draw(plan, ends, relay=None):
    """The picture; ends has the rounds of all ends of each station, relay a sender, a start and hops."""
    layout = Layout(plan)
    height = layout.bottom + 30
    head = f"A link plan: {counted(plan.n, 'station')}, {counted(plan.rounds, 'round')}"
    how = "Rounds go across. Each block is a station: its broadcasts, and under them whom it hears."
    stations = range(plan.n)
    blocks = [tag("rect", {"cls": "block" + " even" * (station % 2), "y": layout.top(station), "width": layout.width,
                           "height": layout.block}) for station in stations]
    return "\n".join([
        '<?xml version="1.0" encoding="UTF-8"?>',
        f'<svg xmlns="http://www.w3.org/2000/svg" role="img" aria-labelledby="what how" width="{px(layout.width)}" '
        f'height="{px(height)}" viewBox="0 0 {px(layout.width)} {px(height)}">',
        tag("title", {"id": "what"}, head), tag("desc", {"id": "how"}, how), f"<style>{STYLE}</style>",
        tag("rect", {"cls": "paper", "width": layout.width, "height": height}),
        tag("text", {"cls": "head", "x": LEFT, "y": 28}, head), tag("text", {"cls": "note", "x": LEFT, "y": 48}, how),
        *draw_legend(), *blocks, *draw_axis(layout),
        *(part for station in stations for part in draw_windows(plan, layout, station)),
        *(part for station in stations for part in draw_lane(layout, station, ends[station])),
        *(draw_relay(layout, *relay) if relay else ()), "</svg>", ""])
