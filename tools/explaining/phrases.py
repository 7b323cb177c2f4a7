"""Pieces of sentences, and a line of a document with a mark below it."""
from reading import place_of

WIDTH = 110


def listed(items, last='and'):
    """`a`, `a and b`, `a, b and c`."""
    items = [str(item) for item in items]
    if len(items) < 2:
        return ''.join(items)
    return '%s %s %s' % (', '.join(items[:-1]), last, items[-1])


def counted(number, noun):
    """`1 firing`, `2 firings`, `no firing`."""
    if number == 0:
        return 'no ' + noun
    return '%s %s%s' % (format(number, ','), noun, '' if number == 1 else 's')


def quoted(items):
    return ['`%s`' % item for item in items]


def a_or_an(noun):
    return ('an ' if noun[0] in 'aeio' else 'a ') + noun


def readable(piece):
    """A piece of a document, one sign for each byte or letter that can't be shown."""
    text = piece.encode('latin-1').decode('utf-8', 'replace')
    return ''.join(c if c.isprintable() else ' ' if c in '\t\r' else '?' for c in text)


def marked(text, start, length):
    """The line of an offset, and below it carets from the offset on."""
    line, _ = place_of(text, start)
    begin = text.rfind('\n', 0, start) + 1
    end = text.find('\n', start)
    end = len(text) if end < 0 else end
    before = readable(text[max(begin, start - WIDTH):start])[-WIDTH // 2:]
    after = readable(text[start:min(end, start + WIDTH)])[:WIDTH // 2]
    head = '%5d | ' % line
    carets = '^' * max(1, min(length, len(after)))
    return [(head + before + after).rstrip(), ' ' * len(head) + ' ' * len(before) + carets]


def bulleted(lines):
    return ['  - ' + line for line in lines]
