"""The net of an entry with its calls: contexts, places, arcs and loop instances with their numbers, and its flow program."""
from graphs import Refused, functions
from valid import EQUAL, MOST, Program

MOST_CONTEXTS, MOST_PLACES, MOST_CYCLES = 16384, 65536, 2 ** 63 - 1


class Instance:
    """A loop in a context: its header's place, its bound, and the places that it holds."""

    def __init__(self, header, bound):
        self.header, self.bound, self.held = header, bound, set()


class Net:
    """Contexts (parent, site, target) from 0 on; places (context, unit), arcs (from, to) and instances from 1 on, in
    lists that start at 0. Place 0 is outside."""

    def __init__(self, graph, entry):
        self.graph = graph
        self.contexts, self.made = [(0, 0, entry)], {}
        if not any(unit.returns for unit in graph[entry].units.values()):
            raise Refused("never-returns", entry)
        self.make_contexts(entry)
        self.places = [
            (context, unit) for context in range(len(self.contexts)) for unit in self.function(context).units.values()
        ]
        self.number = {(context, unit.address): at for at, (context, unit) in enumerate(self.places, 1)}
        self.arcs = [(0, self.number[0, entry])]
        for place in range(1, len(self.places) + 1):
            ways = self.onward(place)
            self.arcs += [(place, to) for to in sorted(ways - {0})] + [(place, 0)] * (0 in ways)
        self.instances, self.holders = [], {}
        self.make_instances()

    def function(self, context):
        return self.graph[self.contexts[context][2]]

    def make_contexts(self, entry):
        """Numbers the contexts as they are first seen: those of one context by their sites, then by their targets."""
        places, at = 0, 0
        while at < len(self.contexts):
            places += len(self.function(at).units)
            for site, unit in self.function(at).units.items():
                for target in sorted(unit.calls):
                    self.made[at, site, target] = len(self.contexts)
                    self.contexts.append((at, site, target))
            at += 1
            if len(self.contexts) > MOST_CONTEXTS or places > MOST_PLACES:
                raise Refused("too-many-units", entry)

    def onward(self, place):
        """The places that a place goes to, 0 where the entry returns."""
        context, unit = self.places[place - 1]
        if unit.returns:
            parent, site, _ = self.contexts[context]
            return {0 if context == 0 else self.number[parent, site + 8]}
        ways = {self.number[context, address] for address in unit.ways}
        for target in unit.calls:
            ways.add(self.number[self.made[context, unit.address, target], target])
        return ways

    def make_instances(self):
        """Numbers the loops of all contexts by their headers' places. What is called from a held place is held too."""
        by_header, whole = {}, {}
        for context, (parent, site, _) in enumerate(self.contexts):
            whole[context] = [] if context == 0 else self.holders[self.number[parent, site]]
            own = []
            for loop in self.function(context).loops:
                instance = Instance(self.number[context, loop.header], loop.bound)
                by_header[instance.header] = instance
                own.append((loop, instance))
            for address in self.function(context).units:
                place = self.number[context, address]
                self.holders[place] = whole[context] + [i for loop, i in own if address in loop.body]
                for instance in self.holders[place]:
                    instance.held.add(place)
        self.instances = [by_header[header] for header in sorted(by_header)]

    def times(self, place):
        """The product of the bounds of the instances that hold a place."""
        product = 1
        for instance in self.holders.get(place, ()):
            product *= instance.bound
        return product

    def cost(self, place, profile):
        return 0 if place == 0 else self.places[place - 1][1].cost(profile)

    def program(self, profile):
        """The flow program of the net without caches: the entry's row, those of the places, those of the loops."""
        rows = [(EQUAL, {1: 1}, 1)]
        flow = [{} for _ in self.places]
        loops = {instance.header: {} for instance in self.instances}
        held = {instance.header: instance for instance in self.instances}
        for column, (source, to) in enumerate(self.arcs, 1):
            for place, sign in ((to, 1), (source, -1)):
                if place != 0 and source != to:
                    flow[place - 1][column] = sign
            if to in held:
                factor = 1 if source in held[to].held else 1 - held[to].bound
                if factor != 0:
                    loops[to][column] = factor
        rows += [(EQUAL, terms, 0) for terms in flow]
        rows += [(MOST, loops[instance.header], 0) for instance in self.instances]
        values = [self.cost(to, profile) for _, to in self.arcs]
        caps = [1] + [self.times(source) for source, _ in self.arcs[1:]]
        return Program(rows, values, caps)


def analysed(image, profile):
    """The net and the program of a file under a profile. Refuses it where it has a fault."""
    entry = image.entry
    if profile.entry is not None:
        entry = image.symbol(profile.entry)
        if entry is None:
            raise Refused("no-symbol", 0)
    net = Net(functions(image, entry), entry)
    crude = sum(net.cost(place, profile) * net.times(place) for place in range(1, len(net.places) + 1))
    if crude > MOST_CYCLES:
        raise Refused("bound-too-large", entry)
    return net, net.program(profile)
