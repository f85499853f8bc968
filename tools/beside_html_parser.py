# Compares the reader of pages with html.parser, which stands in python3: random pages of the subset, each with the nodes
# that html.parser's events give when void elements have no content.
#
#   mkdir /tmp/beside
#   python3 tools/beside_html_parser.py 1 300 /tmp/beside/pages.md
#   python3 tools/rows.py /tmp/beside crates/script/out/script crates/ripley/out/ripley
#
# It writes what it finds as rows of nodes, like those of rows/pages.md, and prints how many there are.
#
# Meant differences, which the random pages leave out: html.parser keeps a line feed directly after <textarea> and <pre>,
# and CR; it reads references without a semicolon and the code points 0 and 128 to 159; it refuses nothing, so it is no
# judge of refusals; and it knows no parts of a page: what stands between them is dropped here before the comparison.
import json
import pathlib
import random
import re
import sys
from html.parser import HTMLParser

VOID = ['area', 'br', 'col', 'hr', 'img', 'input', 'source', 'track', 'wbr', 'meta', 'link', 'base']
NESTED = ['div', 'p', 'b', 'span', 'ul', 'li', 'table', 'td', 'x-y', 'h1', 'form', 'select', 'option', 'button', 'pre']
TEXTS = ['a', 'b c', ' ', '\n', '&amp;', '&lt;i&gt;', '&#x41;', '&#65;', '&nbsp;', '&quot;', '&apos;', '\u00e9', '\u20ac', '\U0001F600', '1 &amp; 2', '& ', '"', "'", '=', '>', '/', ']]>']
LISTED = json.loads(re.search(r'var NAMES = (\[.*?\]);', (pathlib.Path(__file__).parent.parent / 'rows/nodes.js').read_text())[1])
NAMES = ['id', 'class', 'title', 'value', 'data-x', 'a:b', 'x_y', 'z.w', 'checked']


class Nodes(HTMLParser):
    def __init__(self):
        super().__init__(convert_charrefs=True)
        self.shown, self.open, self.count = [], [0], 1

    def add(self, text):
        self.shown.append(f'{self.open[-1]}{text}')
        self.count += 1

    def handle_starttag(self, tag, attrs):
        # The rows have attributes in the order of the list in rows/nodes.js.
        attrs = sorted(attrs, key=lambda it: LISTED.index(it[0]))
        self.add('<' + tag + ''.join(f' {name}({value or ""})' for name, value in attrs) + '>')
        if tag not in VOID:
            self.open.append(self.count - 1)

    def handle_startendtag(self, tag, attrs):
        self.handle_starttag(tag, attrs)

    def handle_endtag(self, tag):
        self.open.pop()

    def handle_data(self, data):
        if self.open[-1] > 2 and data:
            self.add('"' + data + '"')

    def handle_comment(self, data):
        if self.open[-1] > 2:
            self.add('<!--' + data + '-->')


def value():
    text = ''.join(random.choice(TEXTS) for _ in range(random.randrange(3)))
    kind = random.randrange(4)
    if kind == 0:
        return ''
    if kind == 1:
        return '=' + (re.sub('[^a-z0-9]', '', text) or 'v')
    quote = random.choice('"\'')
    return '=' + quote + text.replace(quote, '') + quote


def tag(name, end='>'):
    names = random.sample(NAMES, random.choice([0, 0, 0, 1, 2, 3]))
    written = ''.join(random.choice([' ', '\n', '  ', '\t']) + random.choice([n, n, n.upper()]) + value() for n in names)
    return '<' + random.choice([name, name, name.upper()]) + written + random.choice(['', '', ' ']) + end


def forest(depth):
    parts, last = [], ''
    for _ in range(random.randrange(5 if depth < 5 else 2)):
        kind = random.choice(['text', 'text', 'nested', 'nested', 'nested', 'void', 'comment', 'area', 'title'])
        if kind == 'text':
            if last == 'text':
                continue
            text = ''.join(random.choice(TEXTS) for _ in range(1 + random.randrange(3)))
            parts.append(text)
        elif kind == 'nested':
            name = random.choice(NESTED)
            content = forest(depth + 1)
            if name == 'pre' and content.startswith('\n'):
                content = 'p' + content
            parts.append(tag(name) + content + '</' + name + random.choice(['', ' ']) + '>')
        elif kind == 'void':
            parts.append(tag(random.choice(VOID), random.choice(['>', ' />'])))
        elif kind == 'comment':
            parts.append('<!--' + random.choice(['', ' a ', 'b-c', '<b>', '&amp;']) + '-->')
        elif kind == 'area':
            parts.append(tag('textarea') + random.choice(['', 'a', 'b c']) + '</textarea>')
        else:
            parts.append(tag('title') + random.choice(['', 'a', 'b &amp; c']) + '</title>')
        last = kind
    return ''.join(parts)


def between():
    return ''.join(random.choice(['', '', ' ', '\n', '<!-- x -->']) for _ in range(2))


def page():
    head = ''.join(between() + random.choice([tag('meta'), tag('link', '/>'), tag('title') + 'T' + '</title>', '<style>a>b{}</style>']) for _ in range(random.randrange(3)))
    return (between() + random.choice(['', '<!doctype html>', '<!DOCTYPE HTML>\n']) + between() + tag('html') + between() + tag('head') + head + between() + '</head>' + between()
            + tag('body') + forest(0) + '</body>' + between() + '</html>' + between())


def cell(text):
    """A text as a cell of a table."""
    if text == '':
        return '(empty)'
    text = ''.join({'\\': '\\\\', '|': '\\|', '\n': '\\n'}.get(c, c if 32 <= ord(c) < 127 or ord(c) > 0xA0 else f'\\u{ord(c):04x}') for c in text)
    text = re.sub('^ | $', r'\\u0020', text)
    return '`' + text + '`'


def main():
    seed, count, file = int(sys.argv[1]), int(sys.argv[2]), sys.argv[3]
    random.seed(seed)
    rows = []
    while len(rows) < count:
        text = page()
        if re.search('&(?=[^a-z#]|$)', text.replace('& ', '')) or len(text) > 900:
            continue
        nodes = Nodes()
        nodes.feed(text)
        nodes.close()
        rows.append((text, ' '.join(nodes.shown)))
    with open(file, 'w') as f:
        f.write('## Nodes: as html.parser finds them\n\n| page | nodes |\n|---|---|\n')
        f.write(''.join(f'| {cell(text)} | {cell(found)} |\n' for text, found in rows))
    print(f'{count} pages, {sum(len(found) for _, found in rows)} characters of nodes')


main()
