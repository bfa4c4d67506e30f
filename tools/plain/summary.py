"""What a session comes to: for each lane readings, hottest, lowest voltage and timeouts; then what was refused, and where."""
from .words import hundredths, refusal_words


class Lane:
    def __init__(self):
        self.readings, self.hottest, self.lowest = 0, None, None
        # by the words of each timeout
        self.timeouts = {"acknowledgement timeout": 0, "response timeout": 0}

    def read(self, reading):
        first = not self.readings
        self.readings += 1
        self.hottest = reading["temperature"] if first else max(self.hottest, reading["temperature"])
        self.lowest = reading["voltage"] if first else min(self.lowest, reading["voltage"])

    def words(self):
        parts = [counted(self.readings, "reading")]
        if self.readings:
            parts += [f"hottest {self.hottest} °C", f"lowest voltage {hundredths(self.lowest)} V"]
        return ", ".join(parts + [counted(number, words) for words, number in self.timeouts.items()])


class Summary:
    def __init__(self):
        self.lanes = [Lane() for _ in range(4)]
        self.lines = self.openings = self.recoveries = 0
        # by number, the lines refused with it
        self.refused = {}

    def add(self, event):
        self.lines += 1
        self.openings += event.opens
        self.recoveries += event.recovered
        if event.refused:
            self.refused.setdefault(event.refused, []).append(event.number)
        if event.reading:
            self.lanes[event.reading["lane"]].read(event.reading)
        if event.timeout:
            self.lanes[event.timeout["lane"]].timeouts[event.answer.form.words] += 1

    def text(self, craft):
        yield (f"Summary: {counted(self.lines, 'line')}, {counted(self.openings, 'opening')}, "
               f"{counted(self.recoveries, 'recovery')}, {sum(map(len, self.refused.values()))} refused")
        for number, lane in enumerate(self.lanes):
            yield f"{craft.place(number)}: {lane.words()}"
        for number, lines in sorted(self.refused.items()):
            yield f"{refusal_words(number)}: {'line' if len(lines) == 1 else 'lines'} {runs(lines)}"


def counted(number, word):
    plural = word.removesuffix("y") + "ies" if word.endswith("y") else word + "s"
    return f"{number} {word if number == 1 else plural}"


def runs(numbers):
    """Rising numbers, those that follow each other as first-last."""
    stretches = []
    for number in numbers:
        if stretches and stretches[-1][1] == number - 1:
            stretches[-1][1] = number
        else:
            stretches.append([number, number])
    return ", ".join(f"{first}" if first == last else f"{first}-{last}" for first, last in stretches)
