"""The texts of firings, blocks, journals and states, as lines."""
from system import LANES


def firing_text(firing):
    text = '%d %d %s' % (firing.line, firing.object, firing.rule)
    return text if firing.me is None else text + ' from %d' % firing.me


def lock_text(lock, is_down):
    if lock is None:
        return 'free'
    text = '%s:%s:%d' % (lock.origin, lock.id, lock.value)
    return text + ':' + ','.join(str(child) for child in lock.awaited) if is_down else text


def object_lines(place, here):
    line = '%d %s' % (place, here.kind)
    line += ''.join(' %s=%s' % pair for pair in here.fields.items())
    line += ' val=%d up=%s down=%s' % (here.val, lock_text(here.up, False), lock_text(here.down, True))
    if here.kind != 'leaf':
        line += ' dir=' + ','.join(here.dir[child] for child in here.children)
    lines = [line]
    for lane in LANES:
        if here.lists[lane]:
            items = ''.join(' %s:%d' % (item.id, item.value) for item in here.lists[lane])
            lines.append('%s %d%s' % (lane, place, items))
    return lines


def state_lines(state):
    lines = ['state']
    for number_of_line, objects in enumerate(state):
        lines.append('line %d' % number_of_line)
        for place, here in enumerate(objects):
            lines += object_lines(place, here)
    return lines + ['end']


def block_lines(blocks):
    lines = ['blocks %d' % len(blocks)]
    for t, firings in blocks:
        lines.append('block %d' % t)
        lines += [firing_text(firing) for firing in firings]
    return lines


def journal_lines(journal):
    return ['journal %d' % len(journal)] + [firing_text(firing) for firing in journal]
