# A reader of batches, written from what a batch is, for comparison.
#
# What JSON is to it is what serde_json takes: UTF-8 with no byte order mark; no `NaN`, `Infinity`, comments, trailing commas
# or control characters in texts; no lone surrogates; no number that no float reaches, as 1e400; at most 127 levels; of
# a repeated member the last counts. A number is whole where it has no point, no exponent and no sign before a zero.
import re

# A READER OF JSON, AS BYTES


class Refused(Exception):
    pass


LEVELS = 127
NUMBER = re.compile(r'-?(0|[1-9][0-9]*)(\.[0-9]+)?([eE][-+]?[0-9]+)?')
PLAIN = {'"': '"', '\\': '\\', '/': '/', 'b': '\b', 'f': '\f', 'n': '\n', 'r': '\r', 't': '\t'}


class Reader:
    def __init__(self, body):
        try:
            self.text = body.decode('utf-8')
        except UnicodeDecodeError:
            raise Refused('no UTF-8')
        self.at = 0

    def here(self):
        return self.text[self.at:self.at + 1]

    def skip(self):
        while self.here() != '' and self.here() in ' \t\n\r':
            self.at += 1

    def take(self, wanted):
        if not self.text.startswith(wanted, self.at):
            raise Refused('no JSON')
        self.at += len(wanted)

    def whole(self):
        value = self.value(LEVELS)
        self.skip()
        if self.here() != '':
            raise Refused('more behind')
        return value

    def value(self, levels):
        self.skip()
        first = self.here()
        for word, value in (('null', None), ('true', True), ('false', False)):
            if first == word[0]:
                self.take(word)
                return value
        if first == '"':
            return self.string()
        if first == '[' or first == '{':
            if levels == 0:
                raise Refused('past 127 levels')
            return self.array(levels - 1) if first == '[' else self.object(levels - 1)
        return self.number()

    def number(self):
        found = NUMBER.match(self.text, self.at)
        if not found:
            raise Refused('no JSON')
        self.at = found.end()
        text = found.group()
        if found.group(2) is None and found.group(3) is None and len(text) < 25:
            n = int(text)
            if text[0] != '-' and n < 2 ** 64 or text[0] == '-' and -2 ** 63 <= n < 0:
                return n
        x = float(text)
        if x in (float('inf'), float('-inf')):
            raise Refused('number past floats')
        return x

    def unit(self):
        digits = self.text[self.at:self.at + 4]
        if not re.fullmatch('[0-9a-fA-F]{4}', digits):
            raise Refused('escape')
        self.at += 4
        return int(digits, 16)

    def escaped(self):
        letter = self.here()
        self.at += 1
        if letter in PLAIN and letter != '':
            return PLAIN[letter]
        if letter != 'u':
            raise Refused('escape')
        unit = self.unit()
        if 0xDC00 <= unit < 0xE000:
            raise Refused('lone surrogate')
        if 0xD800 <= unit < 0xDC00:
            if not self.text.startswith('\\u', self.at):
                raise Refused('lone surrogate')
            self.at += 2
            low = self.unit()
            if not 0xDC00 <= low < 0xE000:
                raise Refused('lone surrogate')
            return chr(0x10000 + (unit - 0xD800) * 0x400 + (low - 0xDC00))
        return chr(unit)

    def string(self):
        self.take('"')
        parts = []
        while True:
            letter = self.here()
            if letter == '':
                raise Refused('no end of a text')
            if letter < ' ':
                raise Refused('control character')
            self.at += 1
            if letter == '"':
                return ''.join(parts)
            parts.append(self.escaped() if letter == '\\' else letter)

    def array(self, levels):
        self.take('[')
        values = []
        self.skip()
        if self.here() == ']':
            self.at += 1
            return values
        while True:
            values.append(self.value(levels))
            self.skip()
            if self.here() == ']':
                self.at += 1
                return values
            self.take(',')

    def object(self, levels):
        self.take('{')
        members = {}
        self.skip()
        if self.here() == '}':
            self.at += 1
            return members
        while True:
            self.skip()
            name = self.string()
            self.skip()
            self.take(':')
            members[name] = self.value(levels)
            self.skip()
            if self.here() == '}':
                self.at += 1
                return members
            self.take(',')


# WHAT A BATCH IS

KINDS = ['click', 'focus', 'blur', 'submit', 'change', 'input']
SHORT = {'"': '\\"', '\\': '\\\\', '\b': '\\b', '\f': '\\f', '\n': '\\n', '\r': '\\r', '\t': '\\t'}


def need(holds, reason):
    if not holds:
        raise Refused(reason)


# The JSON with no white space, the fewest escapes, and members in the order of their names' bytes.
def written(value):
    if value is None:
        return 'null'
    if value is True or value is False:
        return 'true' if value else 'false'
    if type(value) is int:
        return str(value)
    if type(value) is str:
        return '"' + ''.join(SHORT.get(c, c if c >= ' ' else '\\u%04x' % ord(c)) for c in value) + '"'
    if type(value) is list:
        return '[' + ','.join(map(written, value)) + ']'
    members = sorted(value.items(), key=lambda m: m[0].encode())
    return '{' + ','.join(written(name) + ':' + written(member) for name, member in members) + '}'


def parts(value):
    return value if type(value) is list else value.values() if type(value) is dict else []


def nesting(value):
    return 1 + max(map(nesting, parts(value)), default=0) if type(value) in (list, dict) else 0


def need_data(value):
    if type(value) in (int, float):
        need(type(value) is int and abs(value) < 2 ** 53, 'number in args')
    for part in parts(value):
        need_data(part)


def need_number(value, reason):
    need(type(value) is int and 0 <= value < 2 ** 32, reason)


def need_event(values):
    need(len(values) >= 2, 'short event')
    kind, node, *detail = values
    need(type(kind) is str and kind in KINDS, 'kind')
    need_number(node, 'node')
    if kind == 'input':
        need(len(detail) == 1 and type(detail[0]) is str, 'text of an input')
    elif kind == 'change' and detail:
        need(len(detail) == 1, 'place of a change')
        need_number(detail[0], 'place of a change')
    else:
        need(not detail, 'detail of an event')


def need_call(values):
    need(len(values) == 3, 'length of a call')
    number, name, args = values
    need_number(number, 'number of a call')
    need(type(name) is str and re.fullmatch('[A-Za-z0-9_.]{1,64}', name), 'name')
    need(type(args) is list, 'args are no list')
    need_data(args)
    need(nesting(args) <= 8, 'depth of args')
    need(len(written(args).encode()) <= 16384, 'length of args')


def need_item(item):
    need(type(item) is list and len(item) > 0 and type(item[0]) is str, 'no item')
    word, *values = item
    need(word in ('event', 'call', 'reply'), 'word of an item')
    if word == 'event':
        need_event(values)
    elif word == 'call':
        need_call(values)
    else:
        need(len(values) == 1, 'length of a reply')
        need_number(values[0], 'number of a reply')


# The text of the batch that the body spells.
def batch_text(body):
    batch = Reader(body).whole()
    need(type(batch) is dict, 'no object')
    need(sorted(batch) == ['batch', 'items'], 'members')
    number, items = batch['batch'], batch['items']
    need(type(number) is int and 1 <= number < 2 ** 53, 'number of a batch')
    need(type(items) is list, 'items are no list')
    need(len(items) <= 64, 'more than 64 items')
    for item in items:
        need_item(item)
    return written(batch)
