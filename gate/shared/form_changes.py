"""What finds the stamps of a log whose form changes: once 15 lines in a row have none, two of the next ones in which one other form
and place has stamps change it for the lines behind them."""

from .form_lines import Reader, chosen_in, chosen_reader, finds, is_read
from .stamp_lines import LONGEST, stamp_of

# The lines in a row without a stamp behind which the next ones choose, and how many of these choose before as many more are awaited.
ROW, CHOOSING = 15, 16

# The most bytes of a line that choose.
FRONT = 1_024

# What a form lacks where no option gives it.
OFFSET_LACKS, YEAR_LACKS = "no offset: add one, as --offset +05:30", "no year: add the first one, as --year 2024"


class Changing:
    """What finds the stamps of the lines of a log, one after another, and what is told of the changes. `lacking` has what a form lacks,
    or None, and `make_reader` what finds the stamps of a form at a place."""

    def __init__(self, data, offset=330, year=2024, lacking=lambda _: None, make_reader=Reader):
        self.chosen = chosen_in(data) or ("rfc3339", "front")
        self.offset, self.year, self.lacking, self.make_reader, self.last = offset, year, lacking, make_reader, None
        self.row, self.wait, self.front, self.number, self.told = 0, ROW, None, 0, []
        self.find = self.finder()

    def finder(self):
        """What finds the stamps of the form and the place of now. The last stamp has the year of the next one."""
        if self.chosen == ("rfc3339", "front"):
            return stamp_of
        reader = self.make_reader(*self.chosen, self.offset, self.year)
        if self.last is not None:
            reader.keep(self.last)
        return reader.stamp_of

    def stamp_of(self, line):
        """The stamp of the next line."""
        found = self.find(line)
        self.number += 1
        if isinstance(found, tuple):
            self.row, self.last = 0, found[0]
        elif len(line) > LONGEST or line not in (b"", b"\r") and line[:1] not in (b" ", b"\t"):
            self.take(line[:FRONT])
        return found

    def take(self, front):
        """Takes a line with text and without a stamp."""
        if self.row == 0:
            self.front = None
        self.row += 1
        if self.row < self.wait:
            return
        if is_read(front):
            both = self.front is not None and chosen_reader([self.front, front])
            if both and finds(both, self.front) and finds(both, front):
                self.change(both)
                return
            self.front = front
        if self.row >= self.wait + CHOOSING - 1:
            self.wait *= 2

    def change(self, chosen):
        """Changes to another form, unless it lacks something."""
        lacks = None if chosen == self.chosen else self.lacking(chosen[0])
        if chosen == self.chosen or lacks:
            self.wait *= 2
            if lacks:
                self.told.append(f"line {self.number}: {' at '.join(chosen)} fits: the form has {lacks}")
            return
        self.told.append(f"line {self.number + 1}: the form changes from {' at '.join(self.chosen)} to {' at '.join(chosen)}")
        self.chosen, self.row, self.wait = chosen, 0, ROW
        self.find = self.finder()

    def told_changes(self, name=""):
        """What is told of the first eight changes, and how many more there are."""
        texts = self.told[:8] + ([f"{len(self.told) - 8} more changes of form"] if len(self.told) > 8 else [])
        front = f"stamps: {name}: " if name else "stamps: "
        return "".join(f"{front}{text}\n" for text in texts).encode()
