"""The program's answer to a document, and what needs no document to be told.

An answer is read in its JSON form alone, an object of `lines` and `status`: what `hem JOB --json` prints.
"""
import json
import subprocess
from collections import namedtuple

Answer = namedtuple('Answer', 'status text')

# The statuses that say nothing about the document, and what they say.
OUTSIDE = {
    1: 'The program does not know these words, so it read nothing.',
    2: 'The program could not read its input to the end.',
    3: 'The program could not write its whole answer; a part of it, from its front, was written.',
    9: 'Memory ran out before the first byte of the answer was written.',
    125: 'The program could not be built; what is wrong stands above.',
}


class NoAnswer(Exception):
    """What was read is no answer in the JSON form."""


def plain(words):
    """The words without the one that asks for the JSON form."""
    return [word for word in words if word != '--json']


def of_json(data):
    """The answer that bytes in the JSON form say."""
    try:
        said = json.loads(data)
        lines, status = said['lines'], said['status']
        if type(status) is int and all(type(line) is str for line in lines):
            return Answer(status, ''.join(line + '\n' for line in lines))
    except (ValueError, TypeError, KeyError):
        pass
    raise NoAnswer('this is no answer in the JSON form, as `hem JOB --json` prints it')


def answer(path, words, document):
    """The status and the text that the program gives for words and a document."""
    ran = subprocess.run([path] + plain(words) + ['--json'], input=document, stdout=subprocess.PIPE)
    if ran.returncode in OUTSIDE:
        return Answer(ran.returncode, '')
    got = of_json(ran.stdout)
    if got.status != ran.returncode:
        raise NoAnswer('the program ended with %d, and its answer says %d' % (ran.returncode, got.status))
    return got


def first_line(got):
    return ['hem answers `%s`, status %d.' % (got.text.split('\n')[0], got.status)]


def outside(got):
    return ['Status %d: %s' % (got.status, OUTSIDE[got.status])]


def differs(got, expected):
    """What to tell where the program and the account don't agree."""
    return ['The program and the account in compare/ do not agree on this document, so one of them is wrong.',
            'Please keep the document, and tell whoever looks after hem.',
            '', 'The program: status %d' % got.status, got.text.rstrip('\n'),
            '', 'The account: status %d' % expected[0], expected[1].rstrip('\n')]
