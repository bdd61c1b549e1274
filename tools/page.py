#!/usr/bin/env python3
"""Draws a journal as one page for a browser, which loads nothing from elsewhere.

  tools/page.py JOURNAL [SCRIPT] > PAGE.html

Turns go down. A column for each party and each instance tells who did what, with an arrow to whom it was
done. Beside them stand the seats as bars, from their opening to their exit with its cause; then for each brand
what flowed from where to where, and a bar of what purses, payments and slots have in all. A turn that wasn't
ok is red. A click on a turn shows all of it below. At the end stands who holds what.

The exit status is 0, or 2 where the journal isn't whole or none: then it is drawn as far as it goes."""
import html
import io
import os
import sys

import journal as journals
from tell import Teller
from tool import BadInput, end_with

ROW = 18  # the height of a line
LANES_BEGIN = 76
LANE = 118
LAST_LANE = 280
SEATS_WIDTH = 560
SEAT = 18
CAUSES_WIDTH = 160
FLOW = 300
SUM = 90
MOST_FLOWS = 14  # of one brand in one turn
TURNS_IN_A_PIECE = 250
STYLE = """
body{font:13px/1.4 system-ui,sans-serif;margin:0;color:#222}
header,footer{padding:8px 14px;max-width:1100px}h1{font-size:19px;margin:4px 0}h2{font-size:15px;margin:14px 0 4px}
p{margin:3px 0}svg{display:block;font:11px system-ui,sans-serif}#head{position:sticky;top:0;background:#fff;z-index:1}
.piece{content-visibility:auto}.turn{cursor:pointer;scroll-margin-top:34px}
.turn:hover .back{fill:#eef3ff}.chosen .back{fill:#e0e9ff}
.back{fill:#fff}.odd .back{fill:#fafafa}.lane{stroke:#ddd}.party{fill:#245}.instance{fill:#174}.other{fill:#975}
.say{paint-order:stroke;stroke:#fff;stroke-width:3px}.no{fill:#b00020;font-weight:600}.n{fill:#999}.arrow{stroke:#789}
.flow{fill:#444}.purses{fill:#3b7dd8}.payments{fill:#e0a030}.slots{fill:#3a9d6b}
.head{font-weight:600}.cause{font-size:10px;fill:#555}.seat{opacity:.85}
#more{position:fixed;bottom:0;left:0;right:0;max-height:42vh;overflow:auto;margin:0;padding:8px 14px;background:#fffdf2;
border-top:2px solid #ccb;font:12px/1.35 ui-monospace,monospace;white-space:pre-wrap;display:none;z-index:2}
table{border-collapse:collapse}td,th{padding:1px 10px;border-bottom:1px solid #eee;text-align:left}
"""
SCRIPT = """
addEventListener('click',function(e){var t=e.target.closest('.turn'),m=document.getElementById('more');
document.querySelectorAll('.chosen').forEach(function(c){c.classList.remove('chosen')});
if(t){t.classList.add('chosen');m.textContent=t.querySelector('desc').textContent;m.style.display='block'}
else if(!e.target.closest('#more'))m.style.display='none'})
"""
SUM_KINDS = ("minted", "burned", "purses", "payments", "slots")
SEAT_COLOURS = ("#7aa5d8", "#d8a37a", "#8cc28f", "#b79ad0", "#d88a9a", "#8fc0c0", "#c7bd6d", "#a9a9b8")


def escaped(text):
    return html.escape(text, quote=True)


def shortened(text, most):
    return text if len(text) <= most else text[: most - 2] + ".."


class Drawn:
    """One turn as it is drawn."""

    def __init__(self, turn, line):
        self.row = turn.row
        self.line = line
        self.actor = self.target = None
        self.asked = self.answer = ""
        self.told = ""
        self.flows = {}  # brand: lines
        self.sums = {row["brand"]: row for row in turn.sums}
        self.opened = []
        self.left = []
        self.top = 0
        self.height = ROW

    @property
    def is_ok(self):
        return "ok" in self.row["answer"]


class Picture:
    """Gathers from the journal what is drawn where."""

    def __init__(self, journal, script):
        self.out = io.StringIO()
        self.teller = Teller(self.out, brief=True)
        self.owners = {}  # facet: instance
        self.seats = {}  # number: instance
        self.instances = 0
        self.turns = []
        for turn, line in zip(journal.turns, journals.lines_of_turns(journal, script)):
            self.turns.append(self.read(turn, line))
        self.lanes = self.order_lanes()
        self.brands = self.order_brands()
        self.place_rows()
        self.tracks = self.place_seats()

    # What a turn shows.

    def read(self, turn, line):
        drawn = Drawn(turn, line)
        self.out.seek(0)
        self.out.truncate()
        self.teller.turn(turn, line)
        drawn.told = self.out.getvalue().rstrip("\n")
        drawn.actor = turn.row["by"] or "timer"
        runs = self.running_instance(turn)
        drawn.target = self.target_of(turn, runs)
        drawn.asked, drawn.answer = self.words_of(turn)
        for event in turn.events:
            self.read_event(drawn, event, runs)
        drawn.flows = self.flows_of(turn)
        return drawn

    def running_instance(self, turn):
        if turn.row["kind"] in ("start", "handler", "wake", "notify"):
            return turn.row["by"]
        return self.owners.get(turn.row["on"]) if turn.row["kind"] == "facet" else None

    def target_of(self, turn, runs):
        row = turn.row
        if row["kind"] == "give":
            return row["on"]
        if row["kind"] == "facet":
            return runs
        if row["kind"] == "deadline":
            return self.seats.get(row["on"].replace("seat", ""))
        if row["do"] == "startInstance" and row["kind"] == "service" and "ok" in row["answer"]:
            self.instances += 1
            return f"instance{self.instances - 1}"
        opened = [event["instance"] for event in turn.events if event["row"] == "open"]
        return opened[0] if opened and row["kind"] == "service" else None

    def words_of(self, turn):
        """What was asked, and what came of it where that isn't plain: a refusal, or calls that a function made."""
        row = turn.row
        kind = "" if row["kind"] in ("service", "bad", "facet") else f"{row['kind']}: "
        asked = "a bad line" if row["kind"] == "bad" else kind + self.teller.asked(row)
        how, what = next(iter(row["answer"].items()))
        if how != "ok":
            return asked, f" {how} {self.teller.reason(what)}"
        calls = sum(event["row"] == "call" for event in turn.events)
        return asked, f" · {calls} calls" if calls > 1 else ""

    def read_event(self, drawn, event, runs):
        if event["row"] == "open":
            self.seats[str(event["seat"])] = event["instance"]
            drawn.opened.append(event)
        elif event["row"] == "exit":
            drawn.left.append(event)
        elif event["row"] == "call" and event["how"] == "far" and runs and isinstance(event["answer"].get("ok"), dict):
            self.owners[str(event["answer"]["ok"].get("@"))] = runs

    # What flowed.

    def flows_of(self, turn):
        """By brand, lines `60: a -> b`; what goes through the hand is told from slot to slot."""
        flows, losses = {}, {}
        for event in turn.events:
            if event["row"] != "move":
                continue
            counts = {key: count for key, count in journals.counts_of(event["value"]).items() if count}
            brand = event["brand"]
            if event["to"] == "hand":
                losses.setdefault(brand, []).append((event["from"], counts))
            elif event["from"] == "hand":
                for source, some in taken(losses.get(brand, []), counts):
                    flows.setdefault(brand, []).append(self.flow(some, source, event["to"]))
            elif counts:
                flows.setdefault(brand, []).append(self.flow(counts, event["from"], event["to"]))
        return flows

    def flow(self, counts, source, target):
        return f"{journals.value_of(counts)}: {self.holder(source)} → {self.holder(target)}"

    def holder(self, name):
        """A holder in few words: its label where a party gave one, slots by their seat."""
        label = self.teller.names.labels.get(name, "")
        return name if label.startswith("payout ") else label or name

    # Where it stands.

    def order_lanes(self):
        """Parties in the order of their first turns, then instances, then the timer, who brings ticks and deadlines."""
        parties, instances, timer = [], [], []
        for drawn in self.turns:
            for name in (drawn.actor, drawn.target):
                kind = timer if name == "timer" else instances if name and name.startswith("instance") else parties
                if name and name not in kind:
                    kind.append(name)
        instances.sort(key=lambda name: int(name[len("instance") :] or 0))
        return parties + instances + timer

    def order_brands(self):
        found = {brand for drawn in self.turns for brand in [*drawn.flows, *drawn.sums]}
        return sorted(found, key=lambda brand: (brand == "brand0", int(brand[len("brand") :])))

    def place_rows(self):
        top = 0
        for drawn in self.turns:
            lines = max([1, *(min(len(lines), MOST_FLOWS + 1) for lines in drawn.flows.values())])
            drawn.top, drawn.height = top, ROW * lines
            top += drawn.height

    def place_seats(self):
        """[(seat's open row, first turn, last turn or None, cause, track)] and how many tracks there are."""
        bars, open_bars, free, tracks = [], {}, [], 0
        for index, drawn in enumerate(self.turns):
            for event in drawn.opened:
                if not free:
                    free.append(tracks)
                    tracks += 1
                free.sort()
                bar = {"seat": event, "from": index, "to": None, "cause": "", "track": free.pop(0)}
                open_bars[event["seat"]] = bar
                bars.append(bar)
            for event in drawn.left:
                bar = open_bars.pop(event["seat"], None)
                if bar:
                    bar["to"], bar["cause"] = index, event["cause"]
                    free.append(bar["track"])
        self.bars = bars
        return max(tracks, 1)


def taken(losses, counts):
    """Takes counts out of what slots lost to the hand: [(slot, counts)]."""
    parts = []
    for source, lost in losses:
        some = {key: min(count, lost[key]) for key, count in counts.items() if lost.get(key)}
        for key, count in some.items():
            lost[key] -= count
            counts[key] -= count
        if any(some.values()):
            parts.append((source, {key: count for key, count in some.items() if count}))
    return parts


class Painter:
    """Writes the picture as SVG, in pieces of some hundred turns."""

    def __init__(self, picture):
        self.picture = picture
        self.names = picture.teller.names
        self.lane_width = LANE if len(picture.lanes) <= 10 else max(60, 1200 // len(picture.lanes))
        self.x_of_lane = {name: LANES_BEGIN + self.lane_width * index + 12 for index, name in enumerate(picture.lanes)}
        self.lanes_end = LANES_BEGIN + max(self.lane_width * (len(picture.lanes) - 1) + LAST_LANE, 640)
        self.seat_width = min(SEAT, SEATS_WIDTH / picture.tracks)
        self.causes_begin = self.lanes_end + max(self.seat_width * picture.tracks, 40) + 6
        self.seats_end = self.causes_begin + CAUSES_WIDTH
        self.width = int(self.seats_end + len(picture.brands) * (FLOW + SUM) + 20)
        self.largest = self.largest_sums()

    def largest_sums(self):
        largest = {}
        for drawn in self.picture.turns:
            for brand, row in drawn.sums.items():
                largest[brand] = max(largest.get(brand, 1), int(row["minted"]) - int(row["burned"]))
        return largest

    def x_of_brand(self, brand):
        return self.seats_end + self.picture.brands.index(brand) * (FLOW + SUM)

    def head(self):
        parts = [f'<svg width="{self.width}" height="26">', '<text class="n" x="6" y="17">turn, line</text>']
        for name in self.picture.lanes:
            kind = "instance" if name.startswith("instance") else "other" if name == "timer" else "party"
            parts.append(
                f'<text class="head {kind}" x="{self.x_of_lane[name] - 8}" y="17">{escaped(shortened(name, 18))}</text>'
            )
        parts.append(f'<text class="head" x="{self.lanes_end:.0f}" y="17">seats</text>')
        for brand in self.picture.brands:
            name = shortened(self.names.of_object(brand), 24)
            x = self.x_of_brand(brand)
            parts.append(f'<text class="head" x="{x:.0f}" y="17">{escaped(name)}</text>')
            parts.append(f'<text class="n" x="{x + FLOW:.0f}" y="17">in all</text>')
        return "".join(parts) + "</svg>"

    def pieces(self):
        turns = self.picture.turns
        for first in range(0, len(turns), TURNS_IN_A_PIECE):
            yield self.piece(first, turns[first : first + TURNS_IN_A_PIECE])

    def piece(self, first, turns):
        begin, end = turns[0].top, turns[-1].top + turns[-1].height
        size = f"contain-intrinsic-size:{self.width}px {end - begin}px"  # pieces out of sight aren't painted
        parts = [f'<div class="piece" style="{size}"><svg width="{self.width}" height="{end - begin}">']
        parts += [self.turn(drawn, first + index, drawn.top - begin) for index, drawn in enumerate(turns)]
        for name in self.picture.lanes:
            parts.append(f'<path class="lane" pointer-events="none" d="M{self.x_of_lane[name]} 0V{end - begin}"/>')
        parts += [self.bar(bar, first, len(turns), begin) for bar in self.picture.bars]
        parts += [self.marks(drawn, drawn.top - begin) for drawn in turns]
        return "".join(parts) + "</svg></div>"

    def turn(self, drawn, index, top):
        """The row's background, with all that the turn is in words, and what flowed."""
        shade = "turn odd" if index % 2 else "turn"
        place = f"{drawn.row['n']}" + (f" · {drawn.line.number}" if drawn.line else "")
        parts = [
            f'<g class="{shade}" id="t{drawn.row["n"]}"><desc>{escaped(drawn.told)}</desc>'
            f'<rect class="back" y="{top}" width="{self.width}" height="{drawn.height}"/>'
            f'<text class="n" x="6" y="{top + 13}">{place}</text>'
        ]
        for brand, lines in drawn.flows.items():
            x = self.x_of_brand(brand)
            shown = (
                lines if len(lines) <= MOST_FLOWS else lines[:MOST_FLOWS] + [f".. and {len(lines) - MOST_FLOWS} more"]
            )
            for number, line in enumerate(shown):
                parts.append(
                    f'<text class="flow" x="{x:.0f}" y="{top + 13 + ROW * number}">'
                    f"{escaped(shortened(line, 46))}</text>"
                )
        if drawn.opened or drawn.left:
            words = [f"+{row['seat']}" for row in drawn.opened] + [
                f"-{row['seat']} {row['cause']}" for row in drawn.left
            ]
            told = escaped(shortened(", ".join(words), 30))
            parts.append(f'<text class="cause" x="{self.causes_begin:.0f}" y="{top + 13}">{told}</text>')
        parts += [self.sums(row, top) for row in drawn.sums.values()]
        return "".join(parts) + "</g>"

    def sums(self, row, top):
        x, scale = self.x_of_brand(row["brand"]) + FLOW, (SUM - 14) / self.largest[row["brand"]]
        told = ", ".join(f"{kind} {row[kind]}" for kind in SUM_KINDS)
        parts = [f"<g><title>{escaped(told)}</title>"]
        for kind in ("purses", "payments", "slots"):
            width = int(row[kind]) * scale
            if width > 0:
                parts.append(f'<rect class="{kind}" x="{x:.1f}" y="{top + 4}" width="{width:.1f}" height="10"/>')
                x += width
        return "".join(parts) + "</g>"

    def marks(self, drawn, top):
        """The actor's dot, the arrow to the target, and the words."""
        x, y = self.x_of_lane[drawn.actor], top + 9
        parts = ['<g pointer-events="none">']
        if drawn.target and drawn.target != drawn.actor:
            to, back = self.x_of_lane[drawn.target], -5 if self.x_of_lane[drawn.target] > x else 5
            parts.append(f'<path class="arrow" fill="none" d="M{x} {y}V{top + 16}H{to}m{back} -2l{-back} 2l{back} 2"/>')
        kind = "no" if not drawn.is_ok else "instance" if drawn.actor.startswith("instance") else "party"
        parts.append(f'<circle class="{kind}" cx="{x}" cy="{y}" r="3.5"/>')
        room = int((self.lanes_end - x - 16) / 5.6)
        words = shortened(drawn.asked, max(room - len(drawn.answer), 24)) + drawn.answer
        parts.append(f'<text class="say {kind}" x="{x + 8}" y="{top + 13}">{escaped(words)}</text></g>')
        return "".join(parts)

    def bar(self, bar, first, count, begin):
        """A seat's part in this piece, where it has one."""
        last = first + count - 1
        if bar["from"] > last or (bar["to"] is not None and bar["to"] < first):
            return ""
        turns = self.picture.turns
        starts, ends = bar["from"] >= first, bar["to"] is not None and bar["to"] <= last
        top = (turns[bar["from"]].top if starts else turns[first].top) - begin + (4 if starts else 0)
        stop = turns[bar["to"] if ends else last]
        bottom = stop.top - begin + (14 if ends else stop.height)
        x = self.lanes_end + bar["track"] * self.seat_width
        row = bar["seat"]
        colour = SEAT_COLOURS[int(row["instance"][len("instance") :] or 0) % len(SEAT_COLOURS)]
        label = self.names.of_object(f"seat{row['seat']}")
        gives, wants = self.names.data(row["give"]), self.names.data(row["want"])
        told = f"{label} of {row['instance']}: gives {gives}, wants {wants}, {bar['cause'] or 'open'}"
        parts = [
            f'<g class="seat"><title>{escaped(told)}</title><rect x="{x:.1f}" y="{top}" rx="2" fill="{colour}" '
            f'width="{max(self.seat_width - 3, 1):.1f}" height="{max(bottom - top, 8)}"/>'
        ]
        if self.seat_width >= 14 and starts:
            parts.append(f'<text class="cause" x="{x + 1:.1f}" y="{top + 10}">{row["seat"]}</text>')
        return "".join(parts) + "</g>"


def summary(journal, picture, title):
    names = picture.teller.names
    not_ok = [drawn.row["n"] for drawn in picture.turns if not drawn.is_ok]
    links = ", ".join(f'<a href="#t{number}">{number}</a>' for number in not_ok[:60]) + (
        " .." if len(not_ok) > 60 else ""
    )
    parts = [f"<h1>{escaped(title)}</h1>"]
    if journal.fault:
        parts.append(f'<p style="color:#b00020"><b>This journal isn\'t whole: {escaped(journal.fault)}.</b></p>')
    left = f", {journal.close['left']} deliveries left" if journal.close else ""
    parts.append(f"<p>{len(picture.turns)} turns{left}; not ok: {links or 'none'}.</p>")
    parts.append(
        "<p>A click on a turn shows all of it. Bars under a brand: what "
        '<span style="color:#3b7dd8">purses</span>, <span style="color:#b07a10">payments</span> and '
        '<span style="color:#3a9d6b">slots of seats</span> have, by the largest sum that was out.</p>'
    )
    newest = {brand: row for drawn in picture.turns for brand, row in drawn.sums.items()}
    rows = "".join(
        f"<tr><td>{escaped(names.of_object(brand))}<td>" + "<td>".join(newest[brand][kind] for kind in SUM_KINDS)
        for brand in picture.brands
        if brand in newest
    )
    return "".join(parts) + f"<table><tr><th>brand<th>{'<th>'.join(SUM_KINDS)}{rows}</table>"


def holdings(picture):
    teller = picture.teller
    rows = []
    for holder in sorted(teller.holdings.held):
        what = teller.holdings.of(holder)
        if what:
            told = "; ".join(
                f"{journals.value_of(counts)} {teller.names.of_object(brand)}" for brand, counts in what.items()
            )
            rows.append(f"<tr><td>{escaped(teller.names.of_holder(holder))}<td>{escaped(told)}")
    seats = ", ".join(teller.names.of_object(f"seat{number}") for number in sorted(teller.open_seats))
    return f"<h2>Held at the end</h2><table>{''.join(rows)}</table><p>Open seats: {escaped(seats) or 'none'}.</p>"


def page(journal, script=None):
    """The page's text."""
    picture = Picture(journal, script)
    painter = Painter(picture)
    title = os.path.basename(journal.path)
    parts = [
        f'<!doctype html><html lang="en"><meta charset="utf-8"><title>{escaped(title)}</title><style>{STYLE}</style>',
        f'<header>{summary(journal, picture, title)}</header><div id="head">{painter.head()}</div>',
        *painter.pieces(),
        f'<footer>{holdings(picture)}</footer><pre id="more"></pre><script>{SCRIPT}</script></html>\n',
    ]
    return "".join(parts)


def main(words):
    journal, script = journals.journal_and_script("page.py", __doc__, words)
    sys.stdout.write(page(journal, script))
    if journal.fault:
        raise BadInput(f"{journal.path}: {journal.fault}")
    return 0


if __name__ == "__main__":
    end_with(main, sys.argv[1:])
