"""Checks the examples: that each gives the answer that is recorded for it.

    python3 examples.py [PROGRAM]

The answers are those of the reference, and those of the program where one is given. An example's first line may name the
words that it is run by, as `# hem walk --seed 3`; every other is run by the word `group`. The index `examples/README.md`
names each example, its status and its first line; `NAME.out` has the text. Also checked: the texts of the shipped protocols,
the rules and answers that `docs/DISCIPLINE.md` shows, the answers that `docs/LANGUAGE.md` and `docs/MODULES.md` show,
and what `docs/EXPLAIN.md` shows of `tools/explain`.
"""
import glob
import os
import re
import subprocess
import sys

import reference
import words
from shipped import SHIPPED

ROOT = os.path.dirname(os.path.dirname(os.path.abspath(__file__)))


def text_of(*names):
    with open(os.path.join(ROOT, *names), encoding='latin-1') as file:
        return file.read()


def names_below(*names):
    return sorted(os.path.basename(path) for path in glob.glob(os.path.join(ROOT, *names, '*.hem')))


def wrong_charts():
    """The charts among the documents that `tools/chart` draws otherwise."""
    page = text_of('docs', 'CHARTS.md')
    for name, picture in re.findall(r'^!\[(examples/\w+\.hem)\]\((\w+\.svg)\)$', page, re.M):
        command = [os.path.join(ROOT, 'tools', 'chart'), os.path.join(ROOT, name), '--account']
        with open(os.path.join(ROOT, 'docs', picture), encoding='utf-8') as file:
            if subprocess.run(command, stdout=subprocess.PIPE).stdout.decode() != file.read():
                yield 'docs/' + picture


def rows():
    """The rows of the index: a name with its status and its first line."""
    found = re.findall(r'^\| `(\w+\.hem)` \| .* \| (\d+) \| `(.*)` \|$', text_of('examples', 'README.md'), re.M)
    return {name: (int(status), line) for name, status, line in found}


def of_program(path):
    """What answers a document by some words: the reference, or a program."""
    if path is None:
        return lambda given, document: reference.answer(given, document.encode('latin-1'))

    def answer(given, document):
        ran = subprocess.run([path] + given, input=document.encode('latin-1'), stdout=subprocess.PIPE)
        return ran.returncode, ran.stdout.decode('latin-1')
    return answer


def wrong_answers(answer):
    """The names of the examples whose answer isn't the recorded one."""
    index = rows()
    for name in names_below('examples'):
        recorded = text_of('examples', name[:-len('.hem')] + '.out')
        document = text_of('examples', name)
        status, text = answer(words.of_document(document), document)
        if index.get(name) != (status, text.split('\n')[0]) or text != recorded:
            yield 'examples/' + name
    for name in index:
        if name not in names_below('examples'):
            yield 'examples/%s is in the index alone' % name


def wrong_protocols():
    """The names of the shipped protocols that have another text among the examples, or none."""
    names = [name[:-len('.hem')] for name in names_below('examples', 'protocols')]
    for name in sorted(set(names) | set(SHIPPED)):
        if name not in names or name not in SHIPPED or text_of('examples', 'protocols', name + '.hem') != SHIPPED[name]:
            yield 'examples/protocols/%s.hem' % name


def wrong_in_discipline():
    """The answers and rules of `docs/DISCIPLINE.md` that stand in no example."""
    page = text_of('docs', 'DISCIPLINE.md')
    for name, answer in re.findall(r'^```\n\$ \./hem check < examples/(\w+)\.hem\n(.*?)^```$', page, re.M | re.S):
        if text_of('examples', name + '.out') != answer:
            yield 'docs/DISCIPLINE.md: the answer to examples/%s.hem' % name
    texts = [text_of('examples', name) for name in names_below('examples')] + list(SHIPPED.values())
    known = {line for text in texts for line in text.split('\n')}
    for line in re.findall(r'^rule \w.*$', page, re.M):
        if line not in known:
            yield 'docs/DISCIPLINE.md: ' + line


def wrong_in_language():
    """The answers to examples that `docs/LANGUAGE.md` shows whole and otherwise than they are recorded."""
    form = r'^(?:[^\n]* )?For `examples/(\w+)\.hem`[^\n]*:\n\n```\n(.*?)^```$'
    shown = re.findall(form, text_of('docs', 'LANGUAGE.md'), re.M | re.S)
    for name, answer in shown:
        if text_of('examples', name + '.out') != answer:
            yield 'docs/LANGUAGE.md: the answer to examples/%s.hem' % name


def wrong_in_modules(answer):
    """The commands of `docs/MODULES.md` to which another answer is shown there."""
    form = r"^\$ \./hem ([^\n]*) <<'END'\n(.*?)^END\n(.*?)^```$"
    shown = re.findall(form, text_of('docs', 'MODULES.md'), re.M | re.S)
    for given, document, text in shown:
        if answer(given.split(' '), document)[1] != text:
            yield 'docs/MODULES.md: hem %s < %s ..' % (given, document.split('\n')[0])
    if not shown:
        yield 'docs/MODULES.md shows no answer'


def wrong_explanations(path):
    """The files of which `docs/EXPLAIN.md` shows another explanation than `tools/explain` gives."""
    shown = re.findall(r'^```\n\$ (tools/explain (\S+))\n(.*?)^```$', text_of('docs', 'EXPLAIN.md'), re.M | re.S)
    for shown_command, name, text in shown:
        command = [os.path.join(ROOT, 'tools', 'explain'), os.path.join(ROOT, name), '--program', path]
        if subprocess.run(command, stdout=subprocess.PIPE).stdout.decode() != text:
            yield 'docs/EXPLAIN.md: ' + shown_command
    if not shown:
        yield 'docs/EXPLAIN.md shows nothing'


def main():
    path = os.path.abspath(sys.argv[1]) if len(sys.argv) > 1 else None
    wrong = list(wrong_answers(of_program(None))) + list(wrong_protocols()) + list(wrong_in_discipline())
    wrong += list(wrong_in_language()) + list(wrong_in_modules(of_program(None)))
    if path is not None:
        wrong += ['%s, by the program' % name for name in wrong_answers(of_program(path))]
        wrong += ['%s, by the program' % name for name in wrong_in_modules(of_program(path))]
        wrong += wrong_explanations(path)
    wrong += list(wrong_charts())
    for line in wrong:
        print('wrong: ' + line)
    print('%d examples, %d protocols, %d wrong' % (len(names_below('examples')), len(SHIPPED), len(wrong)))
    sys.exit(1 if wrong else 0)


if __name__ == '__main__':
    main()
