# Compares the reader of batches with the one of batch_reader.py: random bodies and mutations of right ones, each with the
# text of the batch that it spells, or `refused`.
#
#   git clone . /tmp/beside
#   python3 tools/beside_bodies.py 1 20000 /tmp/beside
#   cd /tmp/beside/crates/bodies && rt try --steps 1 --seconds 600 < stdin
#
# It puts a program of its own into the clone, and the bodies beside it, and prints how many of them are refused for what.
# The program prints each row in which the readers differ, and at last how many rows, batches and differences there are.
import os
import random
import sys

from batch_reader import KINDS, SHORT, Refused, batch_text

PROGRAM = '''#![tactic(auto)]

use rip_wire::{WireError, read_batch, write_batch};
use std::alloc::Global;
use std::io::{BufRead, BufReader};

// What the reader says of a body: the text of its batch in hex, `refused` or `memory`.
fn said(alloc: Global, body: &[u8]) -> anyhow::Result<String> {
    match read_batch(alloc, body) {
        Ok(batch) => {
            let text = write_batch(&batch, alloc)?;
            Ok(hex::encode(alloc, text.as_slice())?)
        }
        Err(WireError::Body) => Ok(String::from_str(alloc, "refused")?),
        Err(WireError::Memory) => Ok(String::from_str(alloc, "memory")?),
    }
}

// Each line is a body in hex, a space, and what the other reader says of it.
fn main(rt: HostRuntime) -> anyhow::Result<()> {
    let alloc = rt.alloc();
    let mut rows = 0u64;
    let mut batches = 0u64;
    let mut other = 0u64;
    for line in BufReader::new(alloc, rt.reader())?.lines(alloc) {
        let line = line?;
        let Some((body, wanted)) = line.as_str().split_once(' ') else {
            continue;
        };
        let body = hex::decode(alloc, body)?;
        let said = said(alloc, body.as_slice())?;
        rows = rows.saturating_add(1);
        if said.as_str() != wanted {
            println!(rt; "row {rows}: {said}")?;
            other = other.saturating_add(1);
        }
        if said.as_str() != "refused" {
            batches = batches.saturating_add(1);
        }
    }
    println!(rt; "{rows} bodies, {batches} batches, {other} differ")?;
    Ok(())
}
'''

# RANDOM BODIES: trees whose objects are lists of members and whose numbers are their spellings


class Spelled(str):
    pass


class Members(list):
    pass


one = random.choice


def chance(n):
    return random.randrange(n) == 0


def some(n, make):
    return [make() for _ in range(random.randrange(n))]


WHOLE = ['0', '1', '2', '7', '99', '65536', '4294967295', '4294967294']
ODD = ['-0', '-1', '1.0', '1e0', '1E0', '0.0', '-0.0', '0e0', '1e400', '-1e400', '1e-400', '0e99999999999999999999', '4294967296',
       '4294967297', '9007199254740991', '9007199254740992', '-9007199254740991', '-9007199254740992', '18446744073709551615',
       '18446744073709551616', '18446744073709551617', '-9223372036854775808', '-9223372036854775809', '1.5', '10e-1',
       '1.7976931348623157e308', '1.7976931348623159e308', '9' * 309, '1' + '0' * 308, '1' + '0' * 5000, '01', '-01', '+1', '.5', '1.', '1e', '1e+', '-',
       '0x1', '1_0', 'NaN', 'Infinity', '-Infinity', '١', '1 1', '00']
TEXTS = ['', 'a', 'Ann', ' ', '"', '\\', '/', '\n', '\t\r', '\b\f', '\0', '\x1f', '\x7f', '\x80', '\u00e9', '\u2028', '\ufeff', '\ufffd', '\uffff', '\ud7ff', '\ue000', '\U00010000',
         '\U0001F600', '\U0010FFFF', 'batch', 'items', 'null', '\u0130', 'Click', 'input ', 'x' * 300, '\u20ac' * 40]
NAMES = ['f', 'a.b', '_', '.', 'Z9', 'load', '0', 'a' * 63, 'a' * 64, 'fn_' * 21 + 'x']
BAD_NAMES = ['', 'a' * 65, 'f-g', 'a b', '\u00e9', '\uff41', 'a\n', 'f\0', '\u0661', 'a/b', '[', '`', '@', '{', ':', 'b' * 66]


def number():
    return Spelled(one(WHOLE) if chance(3) else str(random.randrange(100)))


def text():
    return ''.join(one(TEXTS) for _ in range(random.randrange(3)))


# How deep data nests, as spelled.
def deep(levels):
    value = one([Spelled('1'), text(), None])
    for _ in range(levels):
        value = [value] if chance(2) else Members([(text(), value)])
    return value


def data(levels):
    if levels > 0 and chance(3):
        return some(4, lambda: data(levels - 1))
    if levels > 0 and chance(3):
        return Members(some(4, lambda: (text(), data(levels - 1))))
    return one([None, True, False, text(), text(), Spelled(str(random.randrange(-50, 50))), Spelled(one(['9007199254740991', '-9007199254740991'])), number()])


def args():
    if chance(50):
        return [one(['a', '\u20ac', '"', '\x01', '\\', '\U0001F600']) * random.choice([10, 2000])]
    if chance(8):
        return [deep(7)]
    return some(4, lambda: data(random.randrange(7)))


def event():
    kind = one(KINDS)
    detail = [text()] if kind == 'input' else [number()] if kind == 'change' and chance(2) else []
    return ['event', kind, number()] + detail


def item():
    return one([event, event, lambda: ['call', number(), one(NAMES), args()], lambda: ['reply', number()]])()


def batch():
    count = 64 if chance(60) else random.randrange(5)
    items = [item() if count < 60 or chance(8) else ['reply', number()] for _ in range(count)]
    members = Members([('batch', Spelled(one(['1', '2', '77', '9007199254740991', '4294967296']))), ('items', items)])
    if chance(3):
        members.reverse()
    return members


# The places of all values below: pairs of a list and an index.
def places(value):
    for at, part in enumerate(value):
        yield value, at
        part = part[1] if type(value) is Members else part
        if type(part) in (list, Members):
            yield from places(part)


# A text in quotes as it is spelled: escapes, surrogates with and without a partner, bytes that are no UTF-8.
RIGHT = ['a', 'b', 'event', '\\u0041', '\\u005f', '\\uD83D\\uDE00', '\\ud800\\udc00', '\\udbff\\udfff', '\\ud7ff', '\\ue000', '\\u0000', '\\u001f', '\\/', '\\"', '\x7f',
         '\\ufffe', '\\uFFFF', '\U0010FFFF']
WRONG = ['\\ud83d', '\\ude00', '\\udfff', '\\udbff', '\\ud83d\\u0041', '\\ud83d\\ud83d', '\\ud83d\\ue000', '\\ud83d\\n', '\\ude00\\ud83d', '\\ud83d\\uDBFF', '\x00', '\x1f', '\x1e', '\t', '\n',
         '\\u00g0', '\\u 041', '\\u+041', '\\u004', '\\U0041', '\\x41', "\\'", '\\\n', '\\0', '\\v', '\\a', '\udcff', '\udc80', '\udcc3', '\udced\udca0\udc80', '\udced\udca0\udcbd\udced\udcb8\udc80',
         '\udcc0\udc80', '\udce0\udc80\udcaf', '\udcf4\udc90\udc80\udc80', '\udcf8\udc88\udc80\udc80\udc80', '\udce2\udc82']


def quoted():
    return Spelled('"' + ''.join(one(WRONG if chance(6) else RIGHT) for _ in range(random.randrange(4))) + '"')


# Args whose canonical text has so many bytes.
def args_of_length(length):
    kind = random.randrange(4)
    if kind == 0:
        return ['a' * (length - 4)]
    if kind == 1:
        return ['\u20ac' * ((length - 4) // 3) + 'a' * ((length - 4) % 3)]
    if kind == 2:
        return [Members([('k', '\x01' * ((length - 10) // 6) + '"' * ((length - 10) % 6 // 2) + 'a' * ((length - 10) % 2))])]
    return [Spelled('1')] * ((length - 1) // 2) if length % 2 == 1 else [Spelled('1')] * ((length - 4) // 2) + [Spelled('10')]


def bound():
    kind = random.randrange(9)
    if kind == 0:
        return ['call', number(), one(NAMES), args_of_length(16384 + one([-1, 0, 0, 1, 2]))]
    if kind == 1:
        return ['call', number(), one(NAMES), [deep(one([6, 7, 8, 9]))]]
    if kind == 2:
        return ['call', number(), one(NAMES + BAD_NAMES), []]
    if kind == 3:
        return ['call', number(), 'f', [Spelled(one(ODD + WHOLE))]]
    if kind == 4:
        return ['call', number(), 'f', [Members([('a', Spelled(one(ODD))), ('a', number())])]]
    if kind == 5:
        return one([['event', one(KINDS), number()], ['event', one(KINDS), number(), one([text(), number(), None])], ['reply', number(), number()]])
    if kind == 6:
        return ['reply', Spelled(one(ODD + WHOLE))]
    if kind == 7:
        return ['event', 'input', number(), quoted()]
    return ['call', number(), one([quoted(), 'f']), [quoted(), Members([(quoted(), None), (quoted(), None)])]]


def replaced(old):
    if type(old) is Spelled:
        return Spelled(one(ODD + WHOLE + ['1', '2', '3'] * 8 + ['true', 'null', 'false']))
    if type(old) is str:
        return one([one(TEXTS), one(KINDS), one(NAMES), one(BAD_NAMES), one(['event', 'call', 'reply', 'made', 'Event'])])
    if type(old) is list:
        return one([some(3, lambda: data(2)), Members(), old + [data(1)], old[:-1], old[1:], [old]])
    return one([None, True, False, Members(), [], Spelled('1'), '1'])


def change(tree):
    holder, at = one(list(places(tree)))
    kind = random.randrange(8)
    if type(holder) is Members:
        name, value = holder[at]
        if kind == 0:
            holder.pop(at)
        elif kind == 1:
            holder.insert(at, (name, one([data(2), data(1), deep(one([120, 122, 125, 126, 127])), Spelled(one(ODD))])))
        elif kind == 2:
            holder.append((name, data(1)))
        elif kind == 3:
            holder.append((one(TEXTS + ['more', 'Batch', 'item', 'items ']), data(1)))
        elif kind == 4:
            holder.reverse()
        elif kind == 5:
            holder[at] = (one(TEXTS), value)
        else:
            holder[at] = (name, replaced(value))
    elif kind == 0:
        holder.pop(at)
    elif kind == 1:
        holder.insert(at, holder[at])
    elif kind == 2:
        holder.insert(at, data(1))
    elif kind == 3:
        random.shuffle(holder)
    else:
        holder[at] = replaced(holder[at])


# How a tree is spelled: white space and escapes.
def space(loose):
    return one(['', '', ' ', '\n', '\t', '\r\n', '  ']) if loose else ''


def letter(c, loose):
    if c in '"\\' or c < ' ':
        if c in SHORT and not (loose and chance(2)):
            return SHORT[c]
    elif not (loose and chance(4)):
        return c
    if c == '/' and chance(2):
        return '\\/'
    units = c.encode('utf-16-be', 'surrogatepass')
    return ''.join('\\u' + one([str.upper, str.lower])(units[i:i + 2].hex()) for i in range(0, len(units), 2))


def spell(value, loose):
    def held(value):
        return space(loose) + spell(value, loose) + space(loose)
    if value is None:
        return 'null'
    if value is True or value is False:
        return 'true' if value else 'false'
    if type(value) is Spelled:
        return value
    if type(value) is str:
        return '"' + ''.join(letter(c, loose) for c in value) + '"'
    if type(value) is Members:
        return '{' + (','.join(held(name) + ':' + held(member) for name, member in value) or space(loose)) + '}'
    return '[' + (','.join(map(held, value)) or space(loose)) + ']'


def encoded(value, loose):
    return spell(value, loose).encode('utf-8', 'surrogateescape')


BITS = [b'\xef\xbb\xbf', b'\x00', b'\x0b', b'\x0c', b'\xc2\xa0', b'\xff', b'\xc0\x80', b'\xed\xa0\x80', b'\xf4\x90\x80\x80', b'\xe2\x82', b'//', b'/**/', b',', b',,', b':', b'[', b']',
        b'{', b'}', b'"', b"'", b'\\', b'\\u', b'\\ud83d', b'\\udc00', b'\\ud83d\\ud83d', b'\\ud83d\\u0041', b'\\u00zz', b'\\x41', b'\\"', b' ', b'\n', b'\r', b'\t', b'0', b'1', b'.0',
        b'e0', b'E+1', b'-', b'+', b'null', b'NaN', b'true', b'nul', b'True', b'"batch":3,', b'"items":[],', b',"batch":4', b'["reply",1],', b'\xc3\xa9', b'\x7f', b'\x1f', b'\x1e']


def flipped(body):
    body = bytearray(body)
    for _ in range(one([1, 1, 1, 2, 3])):
        at = random.randrange(len(body) + 1)
        to = min(len(body), at + one([1, 1, 2, 5, 20]))
        kind = random.randrange(6)
        if kind == 0:
            body[at:at + 1] = bytes([random.randrange(256)])
        elif kind == 1 and at < len(body):
            body[at] ^= 1 << random.randrange(8)
        elif kind == 2:
            del body[at:to]
        elif kind == 3:
            body[at:at] = body[at:to]
        elif kind == 4:
            body[at:at] = one(BITS)
        else:
            body = body[:at] + one(BITS) if chance(3) else bytearray(one(BITS)) + body if chance(2) else body + one(BITS)
    return bytes(body)


def body():
    kind = random.randrange(20)
    if kind == 0:
        return encoded(data(4), True)
    tree = batch()
    if kind < 5:
        items = dict(tree)['items']
        items.insert(random.randrange(len(items) + 1), bound())
    elif kind == 5:
        dict(tree)['items'][:] = [['reply', number()]] * one([63, 64, 65, 66])
    elif kind == 6:
        tree.insert(0, (one(['batch', 'items']), one([deep(one([5, 125, 126, 127, 128])), Spelled(one(ODD)), data(3)])))
    elif kind < 14:
        for _ in range(one([1, 1, 1, 2])):
            change(tree)
    spelled = encoded(tree, chance(2))
    return flipped(spelled) if kind > 15 else spelled


def main():
    random.seed(int(sys.argv[1]))
    folder = f'{sys.argv[3]}/crates/bodies'
    os.makedirs(f'{folder}/src', exist_ok=True)
    with open(f'{folder}/src/main.rt', 'w') as out:
        out.write(PROGRAM)
    with open(f'{sys.argv[3]}/crates.txt', 'r+') as crates:
        if 'bodies:' not in crates.read():
            crates.write('bodies: rip_values rip_data rip_wire hex anyhow\n')
    reasons = {}
    with open(f'{folder}/stdin', 'w') as out:
        for _ in range(int(sys.argv[2])):
            spelled = body()
            try:
                said, reason = batch_text(spelled).encode().hex(), 'batch'
            except Refused as refused:
                said, reason = 'refused', str(refused)
            reasons[reason] = reasons.get(reason, 0) + 1
            out.write(f'{spelled.hex()} {said}\n')
    for reason, count in sorted(reasons.items(), key=lambda r: -r[1]):
        print(f'{count:7} {reason}')


main()
