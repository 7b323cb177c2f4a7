"""Documents for the job `check`, and documents with histories of accepted protocols for the job `group`."""
from designs import design, disciplined, with_changes
from protocols import Writer, deep_tree, tree, with_histories, work
from shipped import SHIPPED
from texts import data, layout
from writing import protocol_tokens


def verdicts(rng, number):
    """Protocols: a third accepted or one change away from it, the others further away."""
    for k in range(number):
        form = k % 6
        if form == 0:
            protocol = disciplined(rng)
        elif form == 1:
            protocol = with_changes(rng, disciplined(rng), 1)
        elif form in (2, 3):
            protocol = design(rng, 2, (0, 1, 1, 2))
        elif form == 4:
            protocol = with_changes(rng, design(rng, 1, (0, 1)), rng.randint(1, 4))
        yield data(layout(rng, protocol_tokens(protocol) if form < 5 else Writer(rng, 0.2).protocol()))


def shipped_texts(rng, number):
    """The shipped protocols by name and by text; the number is of no account."""
    for name, text in SHIPPED.items():
        yield data('use ' + name)
        yield data(text)


def disciplined_walks(rng, number):
    """Random histories of accepted protocols on trees of up to four levels."""
    made = 0
    while made < number:
        protocol = disciplined(rng)
        tokens = protocol_tokens(protocol)
        for _ in range(2):
            tree_tokens = rng.choice([deep_tree(rng), tree(rng, 3, 6)])
            kinds = ['root'] + [t for t in tree_tokens[2:] if t in ('leaf', 'mid')]
            head = tokens + tree_tokens + work(rng, protocol, kinds, rng.randint(1, 3), 8)
            for document in with_histories(rng, head, rng.choice([10, 30, 60]), 2):
                made += 1
                yield document
