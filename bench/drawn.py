"""What the scripts share that draw instances of some kind: activities at period 60 that hidden times satisfy."""
import math
import sys

PERIOD = 60


def between(chance, low, high):
    """A weight that is drawn evenly by its magnitude."""
    return int(math.exp(chance.uniform(math.log(low), math.log(high))))


class Drawn:
    """Activities and hidden times that satisfy them; arrivals and departures at stations, and departures on tracks; what each
    event is, its line and its station."""

    def __init__(self, chance):
        self.chance, self.times, self.rows = chance, {}, []
        self.arrivals, self.departures, self.tracks = {}, {}, {}
        self.lines, self.names = 0, {}

    def event(self, time):
        label = len(self.times) + 1
        self.times[label] = time % PERIOD
        return label

    def after(self, tail, minutes):
        return self.event(self.times[tail] + minutes)

    def add(self, tail, head, lower, span, weight):
        """An activity, if the hidden times satisfy it; whether they do."""
        if (self.times[head] - self.times[tail] - lower) % PERIOD > span:
            return False
        self.rows.append((tail, head, lower, lower + span, weight))
        return True

    def run(self, stations, minutes, riders, start=None):
        """One direction of a line along stations: its first departure and its last arrival. `minutes` tells those of a track."""
        chance = self.chance
        first = departure = start or self.event(chance.randrange(PERIOD))
        for here, there in zip(stations, stations[1:]):
            self.departures.setdefault(here, []).append(departure)
            self.names[departure] = ("departure", self.lines, here)
            least, span = minutes(here, there), chance.randint(1, 4)
            arrival = self.after(departure, least + chance.randint(0, min(span, 2)))
            self.add(departure, arrival, least, span, riders(chance))
            self.tracks.setdefault((here, there), []).append((departure, arrival))
            self.arrivals.setdefault(there, []).append(arrival)
            self.names[arrival] = ("arrival", self.lines, there)
            if there != stations[-1]:
                stay, span = chance.randint(1, 3), chance.randint(3, 8)
                departure = self.after(arrival, stay)
                self.add(arrival, departure, 1, span, riders(chance))
        return first, arrival

    def line(self, stations, minutes, riders, span, weight):
        """A line out and back, with a turn of at least 5 minutes at both ends."""
        self.lines += 1
        out, end = self.run(stations, minutes, riders)
        back = self.after(end, 5 + self.chance.randint(0, min(span, 15)))
        self.add(end, back, 5, span, weight)
        _, home = self.run(stations[::-1], minutes, riders, back)
        self.add(home, out, 5, PERIOD - 1, weight)

    def headways(self, least, most):
        """At most so many headways of at least so many minutes between departures that follow each other on a track."""
        pairs = [pair for runs in self.tracks.values() for pair in zip(runs, runs[1:])]
        self.chance.shuffle(pairs)
        for (tail, _), (head, _) in pairs:
            if most > 0 and self.add(tail, head, least, PERIOD - 2 * least, 0):
                most -= 1

    def transfers(self, count, low, high, stations=None):
        """Free transfers, at most so many, at some stations or at all."""
        places = self.arrivals if stations is None else [station for station in stations if station in self.arrivals]
        pairs = [(a, d) for s in places for a in self.arrivals[s] for d in self.departures.get(s, [])]
        self.chance.shuffle(pairs)
        for arrival, departure in pairs[: max(0, count)]:
            least = self.chance.randint(2, 6)
            self.add(arrival, departure, least, PERIOD - 1, between(self.chance, low, high))

    def print(self):
        """Prints the instance, or its names where the command line asks for them by the word `names`."""
        if "names" in sys.argv[3:]:
            for label, (kind, line, station) in sorted(self.names.items()):
                sys.stdout.write(f"{label};station {station} {kind};{line};station {station}\n")
            return
        for number, row in enumerate(self.rows, 1):
            sys.stdout.write(";".join(map(str, (number, *row))) + "\n")
