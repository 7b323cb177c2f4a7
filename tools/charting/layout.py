"""Where things stand in a chart, so that no two texts meet and no text meets a line.

Each firing has a row of its own, and its label stands to the right of its object, above the row's line. A message leaves
its sender along the sender's row, waits in a lane beside the object that takes it, and goes in along that firing's row.
Labels begin beyond the lanes, and the next object comes beyond the longest label.
"""
from collections import namedtuple

ROW = 22
BLOCK_GAP = 12
# After so many rows the names of the objects stand again, in a row of their own.
PAGE = 40
HEAD = 40
LANE = 6
FIRST_LANE = 9
LETTER = 6.7
MARGIN = 8
GUTTER = 92

# A row of a panel: its event, its height from the panel's top, and whether it is its block's first.
Row = namedtuple('Row', 'event y is_first')

# A band behind the rows of a block, from the panel's top.
Band = namedtuple('Band', 'number top bottom')

# An arrow in a panel: its lane counted from the object that takes it, and the heights of its ends. An arrow whose
# message isn't taken ends in its lane.
Wire = namedtuple('Wire', 'arrow lane start end')


def label(event):
    """The rule's name and what stands after it."""
    says = ' '.join(part for part in [event.asked, '→ ' + event.says if event.says else None] if part)
    return event.rule, says


def length(event):
    rule, says = label(event)
    return (len(rule) + 1 + len(says)) * LETTER


class Panel:
    """The rows of a chart in one order, and the lanes of its messages."""

    def __init__(self, blocks, arrows):
        """`blocks` are lists of events, with or without a band."""
        self.rows, self.bands, self.wires, self.names = [], [], [], []
        y = HEAD
        for is_banded, events in blocks:
            top = y
            for event in events:
                if self.rows and len(self.rows) % PAGE == 0:
                    y += ROW
                    self.names.append(y)
                y += ROW
                self.rows.append(Row(event, y, event is events[0]))
            if is_banded:
                y += BLOCK_GAP
                self.bands.append(Band(events[0].number, top + 4, y - 2))
        self.bottom = y + ROW
        self.set_lanes(arrows)

    def set_lanes(self, arrows):
        """Gives each message the first lane that is free beside its target while it waits."""
        height = {row.event.place: row.y for row in self.rows}
        ends = {band.number: band.bottom - 4 for band in self.bands}
        waiting = {}
        for arrow in sorted(arrows, key=lambda arrow: (height[arrow.sent], arrow.target)):
            start = height[arrow.sent]
            end = ends.get(arrow.number, self.bottom - 6) if arrow.taken is None else height[arrow.taken]
            lanes = waiting.setdefault((arrow.target, arrow.source < arrow.target), [])
            lane = next((k for k, free in enumerate(lanes) if free < start), len(lanes))
            lanes[lane:lane + 1] = [end]
            self.wires.append(Wire(arrow, lane, start, end))

    def zone(self, target, is_left):
        """The width of the lanes on one side of an object."""
        lanes = [wire.lane for wire in self.wires
                 if wire.arrow.target == target and (wire.arrow.source < target) == is_left]
        return FIRST_LANE + LANE * max(lanes) if lanes else 0


class Columns:
    """The columns of the objects, the same in all panels of a line."""

    def __init__(self, line, panels):
        self.x, self.label_x, self.objects = {}, {}, line.objects
        x = MARGIN
        for here in line.objects:
            left, right = [max(panel.zone(here.place, is_left) for panel in panels) for is_left in (True, False)]
            title = len(here.title()) * LETTER
            x += max(left + MARGIN, title / 2 + MARGIN)
            self.x[here.place] = x
            self.label_x[here.place] = x + right + MARGIN
            labels = [title] + [length(event) for event in line.events if event.object == here.place]
            x = self.label_x[here.place] + max(labels) + MARGIN
        self.width = x

    def lane_x(self, wire):
        target = wire.arrow.target
        offset = FIRST_LANE + LANE * wire.lane
        return self.x[target] - offset if wire.arrow.source < target else self.x[target] + offset
