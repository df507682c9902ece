"""The dearest walk by two more methods, which don't use one another or the analyser.

`dearest_run` follows the functions' units with a counter for each loop, without contexts, places or rows.
`written` makes a certificate of a net's program by the nest of its loops."""

MOST_STATES = 100_000


class TooLong(Exception):
    """More states than are followed here."""


class Walks:
    """The dearest ways through the functions of a file. A state is a unit with the visits of each loop round it."""

    def __init__(self, graph, profile):
        self.graph, self.profile = graph, profile
        self.known = {}

    def of_function(self, entry):
        """The most cycles from the entry of a function to its return, or None where it doesn't return."""
        if entry not in self.known:
            self.known[entry] = self.from_entry(self.graph[entry])
        return self.known[entry]

    def from_entry(self, function):
        best, first = {}, self.moved(function, None, {}, function.entry)
        stack = [first]
        while stack:
            state = stack[-1]
            steps = self.steps(function, state)
            missing = [other for _, other in steps if other is not None and other not in best]
            if missing:
                stack += missing
                if len(best) + len(stack) > MOST_STATES:
                    raise TooLong
                continue
            own = function.units[state[0]].cost(self.profile)
            ends = [more + (0 if other is None else best[other]) for more, other in steps
                    if other is None or best[other] is not None]
            best[state] = own + max(ends) if ends else None
            stack.pop()
        return best[first]

    def steps(self, function, state):
        """Pairs of the cycles of a call and the next state, which is None behind a return."""
        address, counts = state[0], dict(state[1])
        unit = function.units[address]
        if unit.returns:
            return [(0, None)]
        ways = [(0, to) for to in unit.ways]
        for target in unit.calls:
            cycles = self.of_function(target)
            ways += [] if cycles is None else [(cycles, address + 8)]
        moved = [(cycles, self.moved(function, address, counts, to)) for cycles, to in ways]
        return [(cycles, other) for cycles, other in moved if other is not None]

    @staticmethod
    def moved(function, source, counts, to):
        """The state at a unit, or None where a loop's header would be visited more often than its bound."""
        visits = []
        for loop in function.loops:
            if to not in loop.body:
                continue
            count = counts[loop.header] if source in loop.body else 0
            count += 1 if to == loop.header else 0
            if count > loop.bound:
                return None
            visits.append((loop.header, count))
        return to, tuple(visits)


def dearest_run(graph, entry, profile):
    """The most cycles of a run that keeps the loop bounds, or None where there are too many states to follow."""
    try:
        return Walks(graph, profile).of_function(entry)
    except TooLong:
        return None


class Nest:
    """The dearest turn of each loop instance, from the innermost ones out, and the counts of the dearest walk."""

    def __init__(self, net, program):
        self.net, self.values = net, program.values
        self.heads = {instance.header: instance for instance in net.instances}
        self.turns, self.turn_ways = {}, {}
        self.out = {place: [] for place in range(len(net.places) + 1)}
        for column, (source, to) in enumerate(net.arcs, 1):
            self.out[source].append((column, to))
        self.order = self.sorted_places()
        self.rank = {place: at for at, place in enumerate(self.order)}
        for instance in sorted(net.instances, key=lambda instance: len(instance.held)):
            self.find_turn(instance)

    def is_back(self, source, to):
        return to in self.heads and source in self.heads[to].held

    def sorted_places(self):
        """The reached places in an order in which each arc that isn't a back arc goes on."""
        done, order, stack = set(), [], [(self.net.arcs[0][1], False)]
        while stack:
            place, left = stack.pop()
            if left:
                order.append(place)
            elif place not in done and place != 0:
                done.add(place)
                stack.append((place, True))
                stack += [(to, False) for _, to in self.out[place] if not self.is_back(place, to)]
        return order[::-1]

    def gain(self, column, source, to):
        """The cycles of an arc, with all further turns of a loop that it enters, and without the turn of one that it
        goes round."""
        if to not in self.heads:
            return self.values[column - 1]
        turn = self.turns[to]
        return self.values[column - 1] + (-turn if self.is_back(source, to) else (self.heads[to].bound - 1) * turn)

    def ways_from(self, start, places):
        """For each of the places, which are in order, and for 0 the most cycles from the start on and the last arc,
        without back arcs and other places."""
        far, inside = {start: (0, None)}, {0, *places}
        for place in places:
            for column, to in self.out[place] if place in far else ():
                if self.is_back(place, to) or to not in inside:
                    continue
                cycles = far[place][0] + self.gain(column, place, to)
                if to not in far or cycles > far[to][0]:
                    far[to] = (cycles, column)
        return far

    def find_turn(self, instance):
        """The dearest way from a header back to it."""
        places, header = sorted(instance.held, key=self.rank.get), instance.header
        far = self.ways_from(header, places)
        ends = [(far[source][0] + self.values[column - 1], column)
                for source in places if source in far for column, to in self.out[source] if to == header]
        self.turns[header], last = max(ends)
        self.turn_ways[header] = self.way(far, header, self.net.arcs[last - 1][0]) + [last]

    def way(self, far, start, place):
        columns = []
        while place != start:
            columns.append(far[place][1])
            place = self.net.arcs[far[place][1] - 1][0]
        return columns[::-1]

    def dearest(self):
        """The most cycles and the counts of a walk that takes them."""
        first = self.net.arcs[0][1]
        far = self.ways_from(first, self.order)
        counts, waiting = {}, [(1, [1] + self.way(far, first, 0))]
        while waiting:
            times, columns = waiting.pop()
            for column in columns:
                source, to = self.net.arcs[column - 1]
                counts[column] = counts.get(column, 0) + times
                if to in self.heads and not self.is_back(source, to) and self.heads[to].bound > 1:
                    waiting.append((times * (self.heads[to].bound - 1), self.turn_ways[to]))
        return far[0][0] + self.gain(1, 0, first), counts

    def still_to_come(self):
        """For each place the most cycles behind it, where each turn of a loop is paid at its entering. A place that
        leads nowhere has a number below all others."""
        leads, before = {0}, 0
        while len(leads) != before:
            before = len(leads)
            for place in reversed(self.order):
                if any(to in leads for _, to in self.out[place]):
                    leads.add(place)
        low = -2 ** 66
        rest = {place: None if place in leads else low for place in self.order}
        more = True
        while more:
            more = False
            for place in reversed(self.order):
                for column, to in self.out[place]:
                    if to != 0 and (rest[to] is None or place in leads and to not in leads):
                        continue
                    cycles = 0 if to == 0 else self.gain(column, place, to) + rest[to]
                    if rest[place] is None or cycles > rest[place]:
                        rest[place], more = cycles, True
        return rest


def written(net, program):
    """The bound of a net's program, and a certificate of it with one leaf."""
    nest = Nest(net, program)
    bound, counts = nest.dearest()
    rest = nest.still_to_come()
    rows = [bound] + [-rest[place] for place in range(1, len(net.places) + 1)]
    rows += [nest.turns[instance.header] for instance in net.instances]
    lines = [f"bound {bound}", f"reached {bound}"]
    lines += [f"value {column} {counts[column]}" for column in sorted(counts)]
    lines.append(" ".join(["leaf 1"] + [f"{row}:{times}" for row, times in enumerate(rows, 1) if times != 0]))
    return bound, "\n".join(lines + ["end"]) + "\n"
