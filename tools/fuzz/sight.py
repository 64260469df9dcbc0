"""What `explain` and `picture` have to write, by their definitions: states are looked at one after another, and sets are closed by trying."""

from answers import Replay, text_of
from heap import Bare
from reading import read

LEGEND = "filled: leaked. bold: in its cycle. dashed: weak, or a husk.\\n1/0: strong and weak count. .1 since 2: field 1, since operation 2."


def places_of(heap):
    """The slot at each place, in the order of places: handles, cells, fields."""
    places = {}
    for handle, held in sorted(heap.handles.items()):
        if isinstance(held, Bare):
            places.update({(0, handle, at): slot for at, slot in enumerate(held.fields)})
        else:
            places[0, handle, -1] = held
    places.update({(1, cell, -1): slot for cell, slot in sorted(heap.cells.items())})
    for number, fields in sorted(heap.objects.items()):
        places.update({(2, number, at): slot for at, slot in enumerate(fields or [])})
    return places


def place_text(place):
    kind, number, at = place
    return ["handle", "cell", "field"][kind] + f" {number}" + (f".{at}" if at >= 0 else "")


def named_by(places, number):
    """The places that name an object, with their slots."""
    return {place: slot for place, slot in places.items() if len(slot) == 2 and slot[1] == number}


class Moment:
    """A state: the slots at its places, and what each object is."""

    def __init__(self, heap):
        self.places = places_of(heap)
        self.alive = {number for number in heap.objects if heap.is_alive(number)}
        self.husks = set(heap.objects) - self.alive
        self.reached = self.closed(slot[1] for place, slot in self.places.items() if place[0] < 2 and slot[0] == "strong")
        self.leaked = self.alive - self.reached

    def fields(self, number):
        return [place for place in self.places if place[:2] == (2, number)]

    def holding(self, places):
        """Those of the places that hold an object, with it."""
        return [(place, self.places[place][1]) for place in places if self.places[place][0] == "strong"]

    def closed(self, numbers):
        """The objects with all that ways lead to from their fields."""
        found, coming = set(), list(numbers)
        while coming:
            number = coming.pop()
            if number not in found:
                found.add(number)
                coming += [it for _, it in self.holding(self.fields(number))]
        return found

    def below(self, number):
        """What ways lead to from the fields of an object."""
        return self.closed(it for _, it in self.holding(self.fields(number)))

    def way(self, start, goal):
        """The least way to an object from these places."""
        layer, seen = [([place], number) for place, number in self.holding(sorted(start))], set()
        while True:
            for way, number in layer:
                if number == goal:
                    return way
            behind = []
            for way, number in layer:
                if number not in seen:
                    seen.add(number)
                    behind += [(way + [place], it) for place, it in self.holding(self.fields(number))]
            layer = behind


class Sight:
    """A replay, looked at after each operation."""

    def __init__(self, ops):
        self.replay = Replay([])
        self.moments = [Moment(self.replay.heap)]
        self.since, self.leaked_since = {}, {}
        self.turns = []
        for op in ops:
            self.take(op)
        self.end = self.moments[-1]
        self.lives = dict(self.replay.made())
        self.cycles = self.cycles_of()

    def take(self, op):
        """One operation more."""
        before = self.moments[-1]
        self.replay.go_on(op)
        after = Moment(self.replay.heap)
        self.moments.append(after)
        number = op["id"]
        self.since = {
            place: self.since[place] if before.places.get(place) == slot else number for place, slot in after.places.items()
        }
        self.leaked_since = {it: self.leaked_since.get(it, number) for it in after.leaked}

    def cycles_of(self):
        """The cycle of each leaked object that is in one."""
        below = {number: self.end.below(number) & self.end.leaked for number in self.end.leaked}
        return {
            number: {other for other in below[number] if number in below[other]} for number in below if number in below[number]
        }

    def total(self):
        cycles = {min(cycle) for cycle in self.cycles.values()}
        return f"total {len(self.end.leaked)} leaks {len(cycles)} cycles {len(self.end.husks)} husks"

    def of_note(self):
        """Of each cycle its least object, and each husk."""
        return sorted({min(cycle) for cycle in self.cycles.values()} | self.end.husks)

    def held(self, place):
        return f"{place_text(place)} since {self.since[place]}"

    def life(self, number):
        event, ended, freed = self.lives[number]
        return (f"{event} {ended}" if event else "alive") + (f" freed {freed}" if freed else "")

    def turn_lines(self, number):
        for at, (op, outcome) in enumerate(zip(self.replay.ops, self.replay.outcomes)):
            before, after = self.moments[at], self.moments[at + 1]
            old, new = named_by(before.places, number), named_by(after.places, number)
            lost = [mark("-", place, slot) for place, slot in old.items() if new.get(place) != slot]
            won = [mark("+", place, slot) for place, slot in new.items() if old.get(place) != slot]
            events = [event for event, it in outcome[3] if it == number] if len(outcome) == 4 else []
            if lost or won or events or standing(before, number) != standing(after, number):
                ones = sum(slot[0] == "strong" for slot in new.values())
                yield f"  {op['id']} {op['op']} {ones}/{len(new) - ones}" + "".join(f" {it}" for it in [*lost, *won, *events])

    def why_lines(self, number):
        end = self.end
        if number in end.husks:
            yield "  husk"
        elif number in end.reached:
            way = end.way([place for place in end.places if place[0] < 2], number)
            yield f"  reached by {self.held(way[0])}"
            yield from self.through(way[1:])
        elif number in self.cycles:
            yield f"  leaked since {self.leaked_since[number]} in a cycle among {len(self.cycles[number])} objects"
            yield from self.through(end.way(end.fields(number), number))
        elif number in end.leaked:
            way = end.way([place for place in end.places if place[0] == 2 and place[1] in self.cycles], number)
            yield f"  leaked since {self.leaked_since[number]} under {way[0][1]}"
            yield from self.through(way)

    def through(self, way):
        return [f"    through {self.held(place)}" for place in way]

    def retained(self, number):
        """The least set with the object and each one alive all of whose strong places are fields of members."""
        falling, before = {number}, set()
        while falling != before:
            before = set(falling)
            for it in self.end.alive:
                holders = [place for place, slot in named_by(self.end.places, it).items() if slot[0] == "strong"]
                if all(place[0] == 2 and place[1] in before for place in holders):
                    falling.add(it)
        return falling

    def account(self, number, with_life):
        places = named_by(self.end.places, number)
        yield f"object {number} {self.life(number)}"
        if with_life:
            yield from self.turn_lines(number)
        yield from (f"  held by {self.held(place)}" for place, slot in places.items() if slot[0] == "strong")
        yield from (f"  kept by weak {self.held(place)}" for place, slot in places.items() if slot[0] == "weak")
        yield from self.why_lines(number)
        if number in self.end.alive:
            yield f"  retains {len(self.retained(number))} objects"

    def shown(self, given, shows_all):
        """The objects of a picture."""
        there = self.end.alive | self.end.husks
        if shows_all:
            return there
        asked = set(given) or self.end.leaked | self.end.husks
        shown = asked | {number for number in self.end.alive if self.has_weak_to(number, asked)}
        return shown | {number for number in self.end.alive if self.end.below(number) & shown}

    def has_weak_to(self, number, asked):
        slots = [self.end.places[place] for place in self.end.fields(number)]
        return any(slot[0] == "weak" and slot[1] in asked for slot in slots)

    def picture(self, given, shows_all):
        shown = self.shown(given, shows_all)
        drawn = {
            place: slot
            for place, slot in self.end.places.items()
            if len(slot) == 2 and slot[1] in shown and (place[0] < 2 or place[1] in shown)
        }
        yield "digraph heap {"
        yield f'  graph [rankdir=LR ranksep=0.7 fontname="Helvetica" fontsize=12 label="{self.total()}\\n{LEGEND}"]'
        yield '  node [shape=box style="rounded,filled" fillcolor="white" fontname="Helvetica"]'
        yield '  edge [fontname="Helvetica" fontsize=10]'
        for kind, number in sorted({place[:2] for place in drawn if place[0] < 2}):
            yield f'  {"hc"[kind]}{number} [label="{["handle", "cell"][kind]} {number}" shape=plaintext]'
        yield from (self.node(number, number in given) for number in sorted(shown))
        yield from (self.edge(place, slot) for place, slot in drawn.items())
        yield "}"

    def node(self, number, is_given):
        ones = [slot[0] for slot in named_by(self.end.places, number).values()]
        look = ' fillcolor="#f6b26b"' if number in self.end.leaked else ""
        look += ' style="rounded,dashed"' if number in self.end.husks else ""
        look += " penwidth=3" if is_given else ""
        return f'  o{number} [label="#{number}\\n{ones.count("strong")}/{ones.count("weak")}"{look}]'

    def edge(self, place, slot):
        kind, number, at = place
        line = ' style=dashed color="#0072b2"' if slot[0] == "weak" else ""
        if slot[0] == "strong" and kind == 2 and slot[1] in self.cycles.get(number, ()):
            line = ' penwidth=2.5 color="#c0392b"'
        field = f".{at} " if at >= 0 else ""
        return f'  {"hco"[kind]}{number} -> o{slot[1]} [label="{field}since {self.since[place]}"{line}]'


def mark(sign, place, slot):
    return sign + ("weak " if slot[0] == "weak" else "") + place_text(place)


def standing(moment, number):
    return "alive" if number in moment.alive else "husk" if number in moment.husks else "gone"


def explain(data, words):
    sight = Sight(read(data, 0)[0])
    given = [int(word) for word in words if word != "--life"]
    for number in given:
        if number not in sight.lives:
            return 1, text_of([f"no object {number}"])
    lines = [line for number in given or sight.of_note() for line in sight.account(number, "--life" in words)]
    return 0, text_of(lines if given else [*lines, sight.total()])


def picture(data, words):
    sight = Sight(read(data, 0)[0])
    given = [int(word) for word in words if word != "--all"]
    for number in given:
        if number not in sight.end.alive | sight.end.husks:
            return 1, text_of([f"no object {number}"])
    return 0, text_of(sight.picture(given, "--all" in words))
