"""What a picture shows of a session: readings and timeouts by lane, and recoveries."""
from .summary import counted


class Flight:
    def __init__(self, events):
        self.readings, self.timeouts = [[] for _ in range(4)], [[] for _ in range(4)]
        self.recoveries, self.openings = [], 0
        for event in events:
            self.add(event)
        self.start = min(self.times(), default=0)

    def add(self, event):
        self.openings += event.opens
        if event.reading:
            self.readings[event.reading["lane"]].append(event.reading)
        if event.timeout:
            self.timeouts[event.timeout["lane"]].append(event.time)
        if event.recovered:
            self.recoveries.append(event.time)

    def times(self):
        observed = [reading["observed"] for lane in self.readings for reading in lane]
        return observed + [time for lane in self.timeouts for time in lane] + self.recoveries

    def seconds(self, time):
        """After the first that is shown."""
        return (time - self.start) / 1000

    def lane_words(self, lane):
        return f"{counted(len(self.readings[lane]), 'reading')}, {counted(len(self.timeouts[lane]), 'timeout')}"

    def words(self):
        return f"{counted(self.openings, 'opening')}, {counted(len(self.recoveries), 'recovery')}"


def quantities(craft):
    """What is shown of a reading: a name, a unit and the value in it."""
    speed = (lambda reading: craft.rpm(reading["speed"])) if craft.magnets else lambda reading: reading["speed"] * 100
    return [
        ("temperature", "°C", lambda reading: reading["temperature"]),
        ("voltage", "V", lambda reading: reading["voltage"] / 100),
        ("speed", "rpm" if craft.magnets else "eRPM", speed),
    ]
