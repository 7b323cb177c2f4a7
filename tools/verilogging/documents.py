"""Module texts as the tools read them."""
import argparse
import sys

import playing
from reading import Choice, Fault, place_of, words

DEPTH = 16


class WithPlace(Fault):
    """A fault with its line and its column."""

    def __init__(self, text, fault):
        super().__init__(fault.job, fault.start, fault.cause)
        self.place = place_of(text, fault.start)


def positive(text):
    """A number of at least one, as an option."""
    if not text.isdigit() or int(text) == 0:
        raise argparse.ArgumentTypeError('%r is no number of at least 1' % text)
    return int(text)


def text_of(path):
    if path == '-':
        return sys.stdin.buffer.read().decode('latin-1')
    with open(path, 'rb') as file:
        return file.read().decode('latin-1')


def parsed(text):
    """The modules of a text, and the items of its feed, of which there are none where it has no feed."""
    reader = playing.ModuleReader(text)
    try:
        modules, items = reader.modules(), []
        if reader.step(words('feed'), Choice('end')) == 'feed':
            items = reader.items()
            reader.step(Choice('end'))
    except Fault as fault:
        raise WithPlace(text, fault) from None
    return modules, items


def read(path):
    return parsed(text_of(path))


def fault_text(path, fault):
    """What to tell of a text that doesn't read."""
    return '%s:%d:%d: %s' % (path, *fault.place, fault.cause)
