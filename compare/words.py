"""The words after the program's name: which of them are good, and what they ask for."""
import re
from collections import namedtuple

JOBS = ('check', 'group', 'run', 'walk', 'emit', 'play', 'make')
USAGE = 'usage: hem JOB [--json] [--count N] [--seed N]'
FLAG = '--json'
OPTIONS = ('--count', '--seed')
COUNT_LIMIT = 100000
GREATEST_SEED = 18446744073709551615
FIRST_SEED = 1
# The jobs that take each option, and those that want it.
TAKEN_BY = {'--count': ('run', 'walk', 'play', 'make'), '--seed': ('run', 'walk', 'make')}
WANTED_BY = {'--count': ('make',), '--seed': ()}
# The jobs that take a seed only with a count.
SEEDED_BY_COUNT = ('run',)

# A job with the number of generated requests or of firings to play, or None, the seed, and whether its answer is wanted as
# JSON.
Asked = namedtuple('Asked', 'job count seed json')


def split(given):
    """The words that stand alone, and the options with their values as texts, the flag with none; None where they can't be
    read so."""
    alone, options, rest = [], {}, list(given)
    while rest:
        word = rest.pop(0)
        if word == '--':
            return alone + rest, options
        if not word.startswith('-') or word == '-':
            alone.append(word)
            continue
        name, is_joined, value = word.partition('=')
        if word == FLAG and FLAG not in options:
            options[FLAG] = None
            continue
        if name not in OPTIONS or name in options:
            return None
        if not is_joined:
            if not rest or rest[0].startswith('-') and rest[0] != '-':
                return None
            value = rest.pop(0)
        options[name] = value
    return alone, options


def number(text, least, greatest):
    """The value of one to twenty digits within bounds, or None."""
    if not re.fullmatch('[0-9]{1,20}', text) or not least <= int(text) <= greatest:
        return None
    return int(text)


def read(given):
    """What the words ask for, or None where they aren't good."""
    parts = split(given)
    if parts is None:
        return None
    alone, options = parts
    if len(alone) != 1 or alone[0] not in JOBS:
        return None
    job, has_flag = alone[0], FLAG in options
    options = {name: value for name, value in options.items() if name != FLAG}
    if any(job not in TAKEN_BY[name] for name in options):
        return None
    if job in SEEDED_BY_COUNT and '--seed' in options and '--count' not in options:
        return None
    if any(job in jobs and name not in options for name, jobs in WANTED_BY.items()):
        return None
    bounds = {'--count': (1, COUNT_LIMIT), '--seed': (0, GREATEST_SEED)}
    values = {name: number(text, *bounds[name]) for name, text in options.items()}
    if None in values.values():
        return None
    return Asked(job, values.get('--count'), values.get('--seed', FIRST_SEED), has_flag)


def of_document(text):
    """The words that a document names in its first line, as `# hem walk --seed 3`, or else `group`."""
    named = re.match(r'# hem ([a-z0-9= -]+)\r?\n', text)
    return named.group(1).split() if named else ['group']
