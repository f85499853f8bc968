# A reader of manifests, written from what a manifest is, for comparison. What JSON is to it says batch_reader.py.
import re

from batch_reader import Reader, Refused

MOST_WHOLE = 2 ** 53 - 1
DEEPEST = 8
MOST_FUNCTIONS = 256
MOST_MEMORY = 2 ** 32
OPERATIONS = {'get', 'put', 'add', 'take', 'push', 'list'}

# of each limit its default, its greatest in version 1, and in version 2; version 1 does not know the last two
LIMITS = {
    'fuel': (100_000, 10_000_000, 100_000_000),
    'cells': (20_000, 1_000_000, 4_000_000),
    'units': (100_000, 4_000_000, 16_000_000),
    'nodes': (2_000, 50_000, 200_000),
    'depth': (500, 5_000, 5_000),
    'queue': (65_536, 1_048_576, 1_048_576),
    'sessions': (64, 1_024, 1_024),
    'text': (65_535, None, 262_143),
    'replies': (64, None, 1_024),
}
LANGUAGES = [1]
WIRES = [1]


# Whether the value is this number, spelled whole.
def is_number(value, wanted):
    return type(value) is int and value in wanted


# Refuses a number that is not whole, and what nests too deep.
def judge_data(value, levels):
    if type(value) is float or type(value) is int and abs(value) > MOST_WHOLE:
        raise Refused('Syntax')
    if type(value) in (list, dict):
        if levels == 0:
            raise Refused('Syntax')
        for item in value.values() if type(value) is dict else value:
            judge_data(item, levels - 1)


# The version that the members state.
def version_of(value):
    members = set(value) if type(value) is dict else set()
    if members == {'version', 'functions', 'limits'}:
        if is_number(value['version'], [1]):
            return 1
    elif members == {'version', 'language', 'wire', 'functions', 'limits'}:
        if is_number(value['version'], [2]) and is_number(value['language'], LANGUAGES) and is_number(value['wire'], WIRES):
            return 2
    else:
        raise Refused('Member')
    raise Refused('Version')


def judge_functions(functions):
    if type(functions) is not dict or len(functions) > MOST_FUNCTIONS:
        raise Refused('Function')
    for name, function in functions.items():
        if type(function) is not list or len(function) != 2 or not all(type(text) is str for text in function):
            raise Refused('Function')
        operation, prefix = function
        if operation not in OPERATIONS or not re.fullmatch('[A-Za-z0-9_.]{1,64}', name):
            raise Refused('Function')
        if not re.fullmatch('[A-Za-z0-9_.]{0,64}', prefix):
            raise Refused('Function')


# The limits, the defaults of those that are not named included.
def limits_of(version, named):
    if type(named) is not dict:
        raise Refused('LimitRange')
    for name, value in named.items():
        greatest = LIMITS[name][version] if name in LIMITS else None
        if greatest is None or type(value) is not int or not 1 <= value <= greatest:
            raise Refused('LimitRange')
    return {name: named.get(name, row[0]) for name, row in LIMITS.items()}


# The bytes that the sessions may take together.
def memory_of(limits):
    session = 32 * limits['cells'] + 2 * limits['units'] + 64 * limits['nodes'] + 64 * limits['depth'] + limits['queue']
    return limits['sessions'] * (session + 2_097_152 + 16_384 * limits['replies'])


# `ok`, or the word by which these bytes are refused.
def answer(bytes_):
    try:
        value = Reader(bytes_).whole()
        judge_data(value, DEEPEST)
    except Refused:
        return 'Syntax'
    try:
        version = version_of(value)
        judge_functions(value['functions'])
        limits = limits_of(version, value['limits'])
    except Refused as refusal:
        return str(refusal)
    return 'ok' if memory_of(limits) <= MOST_MEMORY else 'LimitsTooLarge'
