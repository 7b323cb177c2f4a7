"""Runs of the program with less and less address space."""
import resource
from collections import Counter

from starving import rows

LEAST = 1 << 20
# So many limits one after another at which the program doesn't start end a row.
MOST_UNSTARTED = 4
NOTHING = rows.Row('no words', [], b'', None)


def limited(program, row, limit):
    """How a run ends with so many bytes of address space."""
    return rows.run(program, row, preexec_fn=lambda: resource.setrlimit(resource.RLIMIT_AS, (limit, limit)))


def starts(program, limit):
    """Whether the program starts: then it tells the usage where it gets no words, or that it has no memory for that."""
    got = limited(program, NOTHING, limit)
    return got.status == 1 or rows.is_wanting(got)


def ample(program, row):
    """A limit at which the answer is whole: the first of 1, 2, 4, .. MiB, twice."""
    limit = LEAST
    while limit < 1 << 36:
        if rows.is_whole(limited(program, row, limit), row):
            return 2 * limit
        limit *= 2
    return None


def ending(got):
    """How a run that didn't start ended."""
    if got.status is None:
        return 'exec: %s' % got.error
    if got.status < 0:
        return 'signal %d' % -got.status
    return 'status %d: %s' % (got.status, got.error.split(': ')[-1])


def tried(program, row, step):
    """How often the answer was whole, memory ran out, and the program didn't start; and the runs that ended otherwise."""
    counts, unstarted, wrong = Counter(), Counter(), []
    limit = ample(program, row)
    if limit is None:
        return counts, unstarted, [(None, limited(program, row, 1 << 36))]
    while limit > 0 and sum(unstarted.values()) < MOST_UNSTARTED:
        got = limited(program, row, limit)
        if rows.is_whole(got, row):
            counts['whole'] += 1
        elif rows.is_wanting(got):
            counts['wanting'] += 1
        elif not starts(program, limit):
            unstarted[ending(got)] += 1
        else:
            wrong.append((limit, got))
        limit -= step
    return counts, unstarted, wrong
