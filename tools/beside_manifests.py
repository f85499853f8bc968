# Compares `ripley check` with the reader of manifest_reader.py: random manifests of both versions, with members added,
# dropped, spelled twice and renamed, and limits at 0, 1, their greatest and one more.
#
#   python3 tools/beside_manifests.py RIPLEY [SEED] [COUNT]
#
# It prints each manifest about which the two differ, and at last how many there were of each answer and how many differ;
# its status is 1 where one differs. A manifest takes about 3 ms.
import collections
import json
import os
import random
import subprocess
import sys
import tempfile

from manifest_reader import LIMITS, answer

PAGE = '<html><head></head><body></body></html>'
THREE = ['version', 'functions', 'limits']
FIVE = ['version', 'language', 'wire', 'functions', 'limits']
NUMBERS = ['0', '1', '2', '3', '-1', '1.0', '2.0', '"1"', '"2"', 'null', '[1]', '1e0', '18446744073709551616']
NAMES = ['f', 'a.b_c', 'x' * 64, 'x' * 65, '', 'a b', 'ß']
OPERATIONS = ['get', 'put', 'add', 'take', 'push', 'list', 'set', 'Get', '']


# A limit's value: often at an edge of one of the two versions.
def limit_text(dice, name):
    edges = [0, 1, 2, LIMITS.get(name, (7,))[0]]
    for greatest in LIMITS.get(name, (7, 7, 7))[1:]:
        edges += [greatest - 1, greatest, greatest + 1] if greatest else []
    return dice.choice(NUMBERS) if dice.random() < 0.05 else str(dice.choice(edges))


def limits_text(dice):
    if dice.random() < 0.03:
        return dice.choice(['[]', 'null', '1', '""'])
    names = dice.sample(list(LIMITS), dice.randint(0, 4)) + (['Fuel'] if dice.random() < 0.03 else [])
    return '{' + ','.join('"%s":%s' % (name, limit_text(dice, name)) for name in names) + '}'


def function_text(dice):
    if dice.random() < 0.05:
        return dice.choice(['[]', '["get"]', '["get","",""]', '{}', '["get",1]', 'null'])
    operation = dice.choice(OPERATIONS[:6] if dice.random() < 0.95 else OPERATIONS)
    prefix = dice.choice(NAMES[:3] + [''] if dice.random() < 0.95 else NAMES)
    return json.dumps([operation, prefix], ensure_ascii=False)


def functions_text(dice):
    if dice.random() < 0.03:
        return dice.choice(['[]', 'null', '1'])
    if dice.random() < 0.02:
        return json.dumps({'f%d' % k: ['get', ''] for k in range(dice.choice([255, 256, 257]))})
    names = dice.sample(NAMES[:3], dice.randint(0, 2)) + (dice.sample(NAMES[3:], 1) if dice.random() < 0.05 else [])
    return '{' + ','.join(json.dumps(name, ensure_ascii=False) + ':' + function_text(dice) for name in names) + '}'


# The value of a member, mostly as the version wants it.
def member_text(dice, name, version):
    if name == 'functions':
        return functions_text(dice)
    if name == 'limits':
        return limits_text(dice)
    usual = str(version) if name == 'version' else '1'
    return usual if dice.random() < 0.9 else dice.choice(NUMBERS)


# A member is dropped, spelled twice, renamed, or one is added.
def changed(dice, names):
    kind = dice.randrange(5)
    names = list(names)
    place = dice.randrange(len(names))
    if kind == 0:
        del names[place]
    elif kind == 1:
        names.insert(dice.randint(0, len(names)), names[place])
    elif kind == 2:
        names[place] = dice.choice(['Version', 'other', '', 'wires'] + FIVE)
    elif kind == 3:
        names.insert(place, dice.choice(['other', 'language', 'wire', 'name']))
    return names


def manifest(dice):
    version = dice.choice([1, 2])
    names = list(THREE if version == 1 else FIVE)
    dice.shuffle(names)
    while dice.random() < 0.2:
        names = changed(dice, names) or names
        if not names:
            break
    blank = dice.choice(['', '', ' ', '\n'])
    text = '{' + (',' + blank).join('"%s":%s%s' % (name, blank, member_text(dice, name, version)) for name in names) + '}'
    return text[:-1] if dice.random() < 0.01 else text


# What the program answers: `ok`, or the word behind `refused app`.
def program_answer(ripley, room):
    run = subprocess.run([ripley, 'check', 'page.html', 'app.json'], cwd=room, capture_output=True, text=True)
    words = run.stdout.split()
    if words[:1] == ['ok']:
        return 'ok'
    return words[-1] if words[:2] == ['refused', 'app'] else run.stdout + run.stderr


def main(words):
    ripley = os.path.abspath(words[1])
    dice = random.Random(int(words[2]) if len(words) > 2 else 1)
    count = int(words[3]) if len(words) > 3 else 1000
    told, differ = collections.Counter(), 0
    with tempfile.TemporaryDirectory() as room:
        with open(os.path.join(room, 'page.html'), 'w') as page:
            page.write(PAGE)
        for _ in range(count):
            text = manifest(dice)
            with open(os.path.join(room, 'app.json'), 'w', encoding='utf-8') as file:
                file.write(text)
            own, other = answer(text.encode()), program_answer(ripley, room)
            told[own] += 1
            if own != other:
                differ += 1
                print('differs: %r here %s, there %s' % (text, own, other))
    print(' '.join('%s %d' % row for row in sorted(told.items())), 'differ %d' % differ)
    return 1 if differ else 0


if __name__ == '__main__':
    sys.exit(main(sys.argv))
