"""What docs/JOURNAL.md says that turns keep to, tested on the rows of a journal, from scratch."""
import journal as journals

MOST_MINTED = 2**126 - 1
MOST_OUT = {"nat": 2**120 - 1, "set": 1, "bag": 2**63 - 1}
CAUSE_OF_CALL = {"exit": "exit", "fail": "fail", "shutdown": "halted", "shutdownWithFailure": "halted"}


class Seat:
    def __init__(self, row):
        self.instance = row["instance"]
        self.give = amounts_of(row["give"])
        self.want = amounts_of(row["want"])
        self.slots = list(row["give"]) + list(row["want"])


def kind_of(value):
    """The kind whose value it is; None where it is `[]`, a set's and a bag's."""
    if not isinstance(value, list):
        return "nat"
    return ("set" if isinstance(value[0], str) else "bag") if value else None


def amounts_of(amounts):
    """{keyword: (brand, counts)} of a record of amounts."""
    return {key: (part["brand"]["@"], journals.counts_of(part["value"])) for key, part in amounts.items()}


class Rules:
    """Feeds on turns, and gathers in `broken` what doesn't keep to the rules."""

    def __init__(self):
        self.holdings = journals.Holdings()
        self.seats = {}
        self.opened = 0
        self.turns = 0
        self.minted, self.burned = {}, {}
        self.kinds = {}  # brand: kind of its values
        self.spent = set()
        self.known = set()  # payments that a movement named
        self.broken = []

    def say(self, turn, text):
        self.broken.append(f"turn {turn.row['n']}: {text}")

    def turn(self, turn):
        self.turns += 1
        if turn.row["n"] != self.turns:
            self.say(turn, "isn't numbered so")
        emptied, moved, left = set(), set(), {}
        events = turn.events
        for index, event in enumerate(events):
            if event["row"] == "open":
                self.opening(turn, event)
            elif event["row"] == "exit":
                left[event["seat"]] = event["cause"]
                self.exit(turn, event, events[index + 1 :])
            elif event["row"] == "move":
                moved.add(event["brand"])
                self.move(turn, event, emptied)
        if "refused" in turn.row["answer"] and any(event["row"] in ("open", "move", "exit") for event in events):
            self.say(turn, "was refused, and yet something moved")
        self.causes(turn, left)
        self.spent |= emptied
        for payment in emptied:
            if self.holdings.of(payment):
                self.say(turn, f"{payment} was taken from and isn't empty")
        self.sums(turn, sorted(moved, key=lambda brand: int(brand[5:])))
        for number, seat in self.seats.items():
            if not self.is_covered(number, seat):
                self.say(turn, f"seat{number} isn't covered")

    def opening(self, turn, row):
        if row["seat"] != self.opened:
            self.say(turn, f"seat{row['seat']} is opened out of order")
        self.opened += 1
        self.seats[row["seat"]] = Seat(row)

    def move(self, turn, row, emptied):
        counts = journals.counts_of(row["value"])
        for holder in (row["from"], row["to"]):
            if holder.startswith("payment") and holder in self.spent:
                self.say(turn, f"{holder} was spent before")
            if "." in holder and int(holder.partition(".")[0][4:]) not in self.seats and row["from"] != holder:
                self.say(turn, f"{holder} is a slot of no open seat")
        if row["from"].startswith("payment"):
            emptied.add(row["from"])
        if row["to"].startswith("payment"):
            self.known.add(row["to"])
        if "." in row["to"]:
            seat = self.seats.get(int(row["to"].partition(".")[0][4:]))
            keyword = row["to"].partition(".")[2]
            if seat and keyword not in seat.slots:
                seat.slots.append(keyword)
        if row["from"] not in ("outside", "hand"):
            held = self.holdings.of(row["from"]).get(row["brand"], {})
            if any(held.get(key, 0) < count for key, count in counts.items()):
                self.say(turn, f"{row['from']} hasn't so much")
        self.total(self.minted, row, counts, row["from"] == "outside")
        self.total(self.burned, row, counts, row["to"] == "outside")
        if self.minted.get(row["brand"], 0) > MOST_MINTED:
            self.say(turn, f"of {row['brand']} too much was minted")
        kind = kind_of(row["value"])
        if kind and self.kinds.setdefault(row["brand"], kind) != kind:
            self.say(turn, f"{row['brand']} has values of two kinds")
        self.holdings.move(row)

    def total(self, totals, row, counts, applies):
        if applies:
            totals[row["brand"]] = totals.get(row["brand"], 0) + sum(counts.values())

    def exit(self, turn, row, after):
        seat = self.seats.pop(row["seat"], None)
        if seat is None:
            self.say(turn, f"seat{row['seat']} is left, and isn't open")
            return
        if not self.is_covered(row["seat"], seat):
            self.say(turn, f"seat{row['seat']} is left uncovered")
        if sorted(row["payouts"]) != sorted(seat.slots):
            self.say(turn, f"seat{row['seat']} has other payouts than slots")
        for keyword, move in zip(seat.slots, after):
            slot = f"seat{row['seat']}.{keyword}"
            held = self.holdings.of(slot)
            told = {
                move.get("brand"): {
                    key: count for key, count in journals.counts_of(move.get("value", 0)).items() if count
                }
            }
            if move["row"] != "move" or (move["from"], move["to"]) != (slot, row["payouts"].get(keyword)):
                self.say(turn, f"{slot} isn't paid out in its place")
            elif {brand: counts for brand, counts in told.items() if counts} != held:
                self.say(turn, f"{slot} is paid out something else than it has")
            elif move["to"] in self.known:
                self.say(turn, f"{move['to']} was there before")

    def is_covered(self, number, seat):
        def has(rows):
            for keyword, (brand, counts) in rows.items():
                held = self.holdings.of(f"seat{number}.{keyword}").get(brand, {})
                if any(held.get(key, 0) < count for key, count in counts.items()):
                    return False
            return True

        return has(seat.want) or has(seat.give)

    def causes(self, turn, left):
        """Each exit has a cause that the turn shows, and of several the first."""
        shown = {}
        for event in turn.events:
            if event["row"] == "call" and event["how"] == "call" and "ok" in event["answer"]:
                if event["on"].startswith("zseat") and event["do"] in ("exit", "fail"):
                    shown.setdefault(event["on"][len("zseat") :], CAUSE_OF_CALL[event["do"]])
                elif event["on"].startswith("zcf") and event["do"] in ("shutdown", "shutdownWithFailure"):
                    shown.setdefault("all", "halted")
        row, how = turn.row, next(iter(turn.row["answer"]))
        if row["do"] == "tryExit" and row["kind"] == "service" and how == "ok":
            shown.setdefault(row["on"][len("seat") :], "asked")
        if row["kind"] == "deadline":
            shown.setdefault(row["on"][len("seat") :], "deadline")
        if row["kind"] == "handler" and how == "threw":
            shown.setdefault(row["on"][len("zseat") :], "threw")
        if row["kind"] == "start" and how == "threw":
            shown.setdefault("all", "halted")
        if how == "spent":
            shown.setdefault("all", "spent")
        for number, cause in left.items():
            if cause not in (shown.get(str(number)), shown.get("all")):
                self.say(turn, f"seat{number} is left without the cause {cause}")

    def sums(self, turn, moved):
        if [row["brand"] for row in turn.sums] != moved:
            self.say(turn, f"has sums of other brands than those that moved: {moved}")
        for row in turn.sums:
            found, out = {"purse": 0, "payment": 0, "seat": 0}, {}
            for holder, brands in self.holdings.held.items():
                counts = brands.get(row["brand"], {})
                found[holder.partition(".")[0].rstrip("0123456789")] += sum(counts.values())
                for key, count in counts.items():
                    out[key] = out.get(key, 0) + count
            if any(count > MOST_OUT[self.kinds[row["brand"]]] for count in out.values()):
                self.say(turn, f"of {row['brand']} too much is out")
            wanted = {
                "minted": self.minted.get(row["brand"], 0),
                "burned": self.burned.get(row["brand"], 0),
                "purses": found["purse"],
                "payments": found["payment"],
                "slots": found["seat"],
            }
            if "supply" in row:
                wanted["supply"] = wanted["minted"] - wanted["burned"]
            if any(int(row[kind]) != wanted[kind] for kind in wanted):
                self.say(turn, f"the sum of {row['brand']} is {wanted}")
            if wanted["minted"] - wanted["burned"] != sum(found.values()):
                self.say(turn, f"{row['brand']} doesn't add up")


def broken_in(journal):
    """What the turns of a journal don't keep to; an empty list where all is well."""
    rules = Rules()
    for turn in journal.turns:
        rules.turn(turn)
    if journal.close and journal.close["turns"] != rules.turns:
        rules.broken.append("the close row tells another number of turns")
    return rules.broken
