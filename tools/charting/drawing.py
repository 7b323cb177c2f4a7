"""Charts as SVG."""
from html import escape

from charting import layout
from charting.layout import HEAD, Columns, Panel

COLOURS = ['#1b6ca8', '#c0392b', '#1e8449', '#8e44ad', '#b9770e', '#117a8b', '#ad1457', '#5d4037', '#4a5ac7', '#6b7f1c',
           '#d35400', '#546e7a']
GREY = '#667'
TITLE = 34
BETWEEN = 40
# How far the texts of a row stand above its line.
BASELINE = 5
STYLE = '''<style>
text { font: 11px "DejaVu Sans Mono", Menlo, Consolas, monospace; fill: #223; }
.title { font-size: 14px; font-weight: bold; }
.head { font-weight: bold; text-anchor: middle; }
.below, .grey { fill: #667; }
.below { font-size: 10px; text-anchor: middle; }
.right { text-anchor: end; }
.block { font-weight: bold; }
.life { stroke: #ccd; stroke-width: 1; }
.wire { fill: none; stroke-width: 1.4; }
</style>'''


def text(x, y, words, kind='', colour=None):
    more = (' class="%s"' % kind if kind else '') + (' style="fill:%s"' % colour if colour else '')
    return '<text x="%.1f" y="%.1f"%s>%s</text>' % (x, y, more, escape(words))


class Drawing:
    """The pieces of a picture, and how wide and high it is."""

    def __init__(self):
        self.pieces, self.width, self.height = [], 0, 0

    def add(self, piece):
        self.pieces.append(piece)

    def svg(self):
        size = (self.width, self.height)
        head = '<svg xmlns="http://www.w3.org/2000/svg" width="%d" height="%d" viewBox="0 0 %d %d">' % (size * 2)
        back = '<rect width="%d" height="%d" fill="white"/>' % size
        return '\n'.join([head, STYLE, back] + self.pieces + ['</svg>']) + '\n'


class PanelDrawing:
    """Draws one panel of a line at a place of the picture."""

    def __init__(self, drawing, panel, columns, colours, left, top):
        self.drawing, self.panel, self.columns, self.colours = drawing, panel, columns, colours
        self.left, self.top = left + layout.GUTTER, top

    def draw(self, title):
        self.drawing.add(text(self.left - layout.GUTTER, self.top - 8, title, 'title'))
        for band in self.panel.bands:
            self.band(band)
        self.heads(self.top)
        if self.panel.names:
            self.heads(self.top + self.panel.bottom)
        for y in self.panel.names:
            self.names(self.top + y)
        for wire in self.panel.wires:
            self.wire(wire)
        for row in self.panel.rows:
            self.row(row)

    def band(self, band):
        self.drawing.add('<rect x="%.1f" y="%.1f" width="%.1f" height="%.1f" rx="3" fill="%s" fill-opacity="0.09"/>' % (
            self.left - layout.GUTTER, self.top + band.top, self.columns.width + layout.GUTTER, band.bottom - band.top,
            self.colours[band.number]))

    def heads(self, y):
        """The objects' names above or below their lines, and those lines with the upper ones."""
        for here in self.columns.objects:
            x = self.left + self.columns.x[here.place]
            self.drawing.add(text(x, y + 16, here.title(), 'head'))
            if here.parent is not None:
                self.drawing.add(text(x, y + 29, 'below %d' % here.parent, 'below'))
            if y == self.top:
                self.drawing.add('<path class="life" d="M%.1f %.1fV%.1f"/>' % (x, y + HEAD - 6, y + self.panel.bottom))
        self.drawing.add(text(self.left - 46, y + 16, 'block', 'grey right'))
        self.drawing.add(text(self.left - 4, y + 16, 'place', 'grey right'))

    def names(self, y):
        """The objects' names where labels stand."""
        for here in self.columns.objects:
            x = self.left + self.columns.label_x[here.place]
            self.drawing.add(text(x, y - BASELINE, here.title(), 'grey'))

    def wire(self, wire):
        """A message: along its sender's row, down beside its target, and in along the row of its taker."""
        source, target = [self.left + self.columns.x[end] for end in (wire.arrow.source, wire.arrow.target)]
        x, y, end = self.left + self.columns.lane_x(wire), self.top + wire.start, self.top + wire.end
        way = 1 if target > source else -1
        colour = self.colours[wire.arrow.number]
        path = 'M%.1f %.1fH%.1fQ%.1f %.1f %.1f %.1f' % (source, y, x - 4 * way, x, y, x, y + 4)
        if wire.arrow.taken is None:
            path += 'V%.1f' % (end - 3)
            self.drawing.add('<circle cx="%.1f" cy="%.1f" r="3" fill="white" stroke="%s"/>' % (x, end, colour))
        else:
            tip = target - 4 * way
            path += 'V%.1fQ%.1f %.1f %.1f %.1fH%.1f' % (end - 2, x, end, x + 2 * way, end, tip)
            self.drawing.add('<path fill="%s" d="M%.1f %.1fl%d -3v6z"/>' % (colour, tip, end, -5 * way))
        self.drawing.add('<path class="wire" stroke="%s" d="%s"/>' % (colour, path))

    def row(self, row):
        event, y = row.event, self.top + row.y
        colour = self.colours[event.number]
        rule, says = layout.label(event)
        self.drawing.add('<circle cx="%.1f" cy="%.1f" r="4" fill="%s"/>' % (
            self.left + self.columns.x[event.object], y, colour))
        x = self.left + self.columns.label_x[event.object]
        self.drawing.add('<text x="%.1f" y="%.1f" style="fill:%s">%s <tspan class="grey">%s</tspan></text>' % (
            x, y - BASELINE, colour, rule, escape(says)))
        if row.is_first:
            self.drawing.add(text(self.left - 46, y - BASELINE, str(event.number), 'block right', colour))
        self.drawing.add(text(self.left - 4, y - BASELINE, str(event.place), 'grey right'))


def panels_of(line):
    """The two panels of a line: the history, and the blocks."""
    by_place = {event.place: event for event in line.events}
    history = Panel([(False, [event]) for event in line.events], line.arrows)
    blocks = Panel([(True, [by_place[place] for place in places]) for _, places in line.blocks], line.arrows)
    return history, blocks


def draw_line(drawing, line, top, has_title):
    """Draws a line below what is there."""
    panels = panels_of(line)
    columns = Columns(line, panels)
    colours = {number: COLOURS[k % len(COLOURS)] for k, (number, _) in enumerate(line.blocks)}
    left, which = 20, 'line %d: ' % line.line if has_title else ''
    for panel, title in zip(panels, ['the history', 'the same firings, block by block']):
        PanelDrawing(drawing, panel, columns, colours, left, top + TITLE).draw(which + title)
        left += layout.GUTTER + columns.width + BETWEEN
    drawing.width = max(drawing.width, left - BETWEEN + 20)
    drawing.height = top + TITLE + max(panel.bottom + (HEAD if panel.names else 0) for panel in panels) + 20


def chart(name, lines):
    """The chart of the lines of a document."""
    drawing, lines = Drawing(), list(lines)
    drawing.add('<title>%s</title>' % escape(name))
    for line in lines:
        draw_line(drawing, line, drawing.height, len(lines) > 1)
    if not lines:
        drawing.width, drawing.height = 300, 60
        drawing.add(text(20, 34, 'a history without firings'))
    return drawing.svg()
