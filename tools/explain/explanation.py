"""A script and its transcript, explained: `Explanation`."""
import reading

from . import transcript
from .branches import fates
from .rows import rows, rows_by_thread
from .story import Story


class Explanation:
    """What each line of a script was told, what became of each branch, and the values. It raises `reading.Fault` where
    the script has one, and `transcript.Unread` where the transcript isn't that of the script."""

    def __init__(self, text, shown, mode):
        in_threads = mode == "threads"
        script = reading.read(text, in_threads)
        self.mode, self.story = mode, Story(script, transcript.read(shown), in_threads)
        # A tab counts as a space.
        self.lines = [line.decode("ascii").replace("\t", " ").rstrip() for line in reading.lines_of(text)]
        self.rows = (rows_by_thread if in_threads else rows)(self.story, self.lines)
        self.fates = fates(self.story)
        self.opening, self.values = script.keys, self.story.values

    def in_order_of_lines(self):
        """The rows in the order of the script, which in threads isn't that of the transcript."""
        return rows(self.story, self.lines)
