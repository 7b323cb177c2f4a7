"""The examples, each with the words that it names and the answer that is recorded for it."""
import subprocess
from collections import namedtuple

import examples
import words

Row = namedtuple('Row', 'name words document answer')
Run = namedtuple('Run', 'status text error')


def all_rows():
    """A row for each example."""
    index = examples.rows()
    for name in sorted(index):
        document = examples.text_of('examples', name)
        answer = index[name][0], examples.text_of('examples', name[:-len('.hem')] + '.out')
        yield Row(name, words.of_document(document), document.encode('latin-1'), tuple(answer))


def run(program, row, **how):
    """How a run of a program on a row ends; nothing where it didn't start."""
    try:
        ran = subprocess.run([program] + row.words, input=row.document, stdout=subprocess.PIPE, stderr=subprocess.PIPE, **how)
    except OSError as error:
        return Run(None, '', error.strerror or str(error))
    return Run(ran.returncode, ran.stdout.decode('latin-1'), ran.stderr.decode('latin-1').strip())


def is_whole(got, row):
    return (got.status, got.text) == row.answer


def is_wanting(got):
    """Whether memory ran out, and nothing was written."""
    return (got.status, got.text) == (9, '')
