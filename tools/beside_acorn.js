// Compares the parser with acorn, which stands in node: random scripts, each with the tree that acorn finds, or the place
// of the first token with which no script goes on. That place is where acorn refuses the script, and where a search by
// trial finds no list of tokens that goes on; where the two differ the script is left out.
//
//   mkdir /tmp/beside
//   node --expose-internals tools/beside_acorn.js 1 400 /tmp/beside/trees.md
//   python3 tools/rows.py /tmp/beside crates/script/out/script crates/ripley/out/ripley
//
// It writes what it finds as rows of trees, like those of rows/trees.md, and prints how many there are of each kind.
//
// Meant differences, which the parser refuses and acorn does not: labels, `for (.. in ..)`, missing elements in arrays,
// function declarations in blocks and behind `if`, `else` and loops. A script in which acorn finds one of these is left
// out, and so is one with a regular expression.
'use strict';
const fs = require('fs');
const acorn = require('internal/deps/acorn/acorn/dist/acorn');

let seed = Number(process.argv[2]) * 2654435761 % 4294967296;
const count = Number(process.argv[3]);
const file = process.argv[4];

const below = n => { seed = (Math.imul(seed, 1664525) + 1013904223) >>> 0; return Math.floor(seed / 4294967296 * n); };
const one = list => list[below(list.length)];
const chance = n => below(n) === 0;

// RANDOM SCRIPTS, AS LISTS OF TOKENS

const INFIX = ['*', '/', '%', '+', '-', '<<', '>>', '>>>', '<', '>', '<=', '>=', 'instanceof', 'in', '==', '!=', '===', '!==', '&', '^', '|', '&&', '||'];
const ASSIGN = ['=', '=', '=', '+=', '-=', '*=', '/=', '%=', '<<=', '>>=', '>>>=', '&=', '^=', '|='];
const PREFIX = ['delete', 'void', 'typeof', '+', '-', '~', '!'];
const name = () => one(['a', 'b', 'c']);
const literal = () => one(['1', '0', '12', "'x'", '""', "'\\x41'", 'null', 'true', 'false', 'this']);
const some = (n, make) => Array.from({ length: below(n) }, make);
const list = parts => parts.flatMap((part, i) => i ? [',', ...part] : part);

function target(n) {
  switch (below(n > 0 ? 5 : 1)) {
    case 0: case 1: return [name()];
    case 2: return ['(', ...target(n - 1), ')'];
    case 3: return [...primary(n - 1), '.', one(['a', 'if', 'var'])];
    default: return [...primary(n - 1), '[', ...expression(n - 1), ']'];
  }
}
function primary(n) {
  if (n <= 0) return [chance(3) ? literal() : name()];
  switch (below(9)) {
    case 0: return ['(', ...expression(n - 1), ')'];
    case 1: return ['[', ...list(some(3, () => assignment(n - 1))), ']'];
    case 2: return ['(', '{', ...list(some(3, () => [one(['a', 'if', '1', "'x'"]), ':', ...assignment(n - 1)])), '}', ')'];
    case 3: return ['(', 'function', ...some(2, name), '(', ...list(some(3, () => [name()])), ')', '{', ...body(n - 1), '}', ')'];
    case 4: return ['new', ...target(n - 1), ...(chance(2) ? ['(', ...list(some(3, () => assignment(n - 1))), ')'] : [])];
    case 5: return [...primary(n - 1), '(', ...list(some(3, () => assignment(n - 1))), ')'];
    case 6: return target(n);
    default: return [chance(3) ? literal() : name()];
  }
}
function unary(n) {
  switch (below(n > 0 ? 7 : 1)) {
    case 1: return [one(PREFIX), ...unary(n - 1)];
    case 2: return [one(['++', '--']), ...target(n - 1)];
    case 3: return [...target(n - 1), one(['++', '--'])];
    default: return primary(n);
  }
}
function binary(n) {
  const parts = unary(n);
  while (n > 0 && chance(2)) parts.push(one(INFIX), ...unary(n - 1));
  return parts;
}
function assignment(n) {
  switch (below(n > 0 ? 6 : 1)) {
    case 1: return [...target(n - 1), one(ASSIGN), ...assignment(n - 1)];
    case 2: return [...binary(n - 1), '?', ...assignment(n - 1), ':', ...assignment(n - 1)];
    default: return binary(n);
  }
}
function expression(n) {
  return chance(6) ? [...assignment(n - 1), ',', ...assignment(n - 1)] : assignment(n);
}
const semicolon = () => chance(3) ? [] : [';'];
const block = n => ['{', ...some(3, () => statement(n - 1)).flat(), '}'];
const declarator = n => [name(), ...(chance(2) ? ['=', ...assignment(n - 1)] : [])];
const variables = n => ['var', ...list([declarator(n), ...some(2, () => declarator(n))])];
const condition = n => ['(', ...expression(n - 1), ')'];
const declaration = n => ['function', name(), '(', ...list(some(3, () => [name()])), ')', '{', ...body(n - 1), '}'];
function statement(n) {
  switch (below(n > 0 ? 15 : 2)) {
    case 0: return [';'];
    case 1: case 2: case 3: return [...expression(n), ...semicolon()];
    case 4: return [...variables(n), ...semicolon()];
    case 5: return block(n);
    case 6: return ['if', ...condition(n), ...statement(n - 1), ...(chance(2) ? ['else', ...statement(n - 1)] : [])];
    case 7: return ['do', ...statement(n - 1), 'while', ...condition(n), ...semicolon()];
    case 8: return ['while', ...condition(n), ...one([statement(n - 1), ['break', ...semicolon()], ['continue', ...semicolon()]])];
    case 9: case 10: return ['for', '(', ...one([[], expression(n - 1), variables(n - 1)]), ';', ...one([[], expression(n - 1)]), ';', ...one([[], expression(n - 1)]), ')', ...statement(n - 1)];
    case 11: return ['return', ...one([[], expression(n - 1)]), ...semicolon()];
    case 12: return ['throw', ...expression(n - 1), ...semicolon()];
    case 13: return ['switch', ...condition(n), '{', ...some(3, () => ['case', ...expression(n - 1), ':', ...some(2, () => statement(n - 1)).flat()]).flat(), ...(chance(2) ? ['default', ':', ...some(2, () => statement(n - 1)).flat()] : []), '}'];
    default: return ['try', ...block(n), ...one([['catch', '(', name(), ')', ...block(n)], ['finally', ...block(n)], ['catch', '(', name(), ')', ...block(n), 'finally', ...block(n)]])];
  }
}
function body(n) { return some(3, () => chance(5) ? declaration(n) : statement(n)).flat(); }

const WORDS = ['a', 'b', '1', "'x'", '(', ')', '[', ']', '{', '}', ';', ';', ',', '.', '?', ':', '=', '+=', '+', '-', '*', '++', '--', '!', 'in', '&&', 'typeof', 'new', 'function', 'var', 'if', 'else', 'for', 'while', 'do', 'return', 'throw', 'switch', 'case', 'default', 'try', 'catch', 'finally', 'this', 'null'];

// a list of tokens with one changed, left out, put in or moved
function broken(tokens) {
  const i = below(tokens.length + 1);
  switch (below(4)) {
    case 0: return [...tokens.slice(0, i), ...tokens.slice(i + 1)];
    case 1: return [...tokens.slice(0, i), one(WORDS), ...tokens.slice(i)];
    case 2: return [...tokens.slice(0, i), one(WORDS), ...tokens.slice(i + 1)];
    default: return tokens.slice(0, i);
  }
}

// the tokens as a text, and where each stands
function spelled(tokens) {
  let text = '';
  const places = [];
  for (const token of tokens) {
    if (text) text += chance(6) ? '\n' : ' ';
    places.push(text.length);
    text += token;
  }
  return { text, places };
}

// WHAT ACORN FINDS

class Meant extends Error {}
const OPTIONS = { ecmaVersion: 5, sourceType: 'script', allowReturnOutsideFunction: true };
// acorn asks for a loop around `break`, which the grammar does not
let place = 0;
const parsed = text => { try { return acorn.parse(text, OPTIONS); } catch (e) { if (/Unsyntactic/.test(e.message)) throw new Meant(); place = e.pos; return null; } };

const node = (form, children) => children.length ? `(${form} ${children.join(' ')})` : form;
const all = nodes => nodes.filter(n => n).map(n => shown(n));
const inner = statements => statements.map(s => shown(s, true));
const whole = (form, f) => node(form, [...f.params.map(() => 'Parameter'), ...inner(f.body.body)]);
const entry = p => { if (p.kind !== 'init') throw new Meant(); return node('Entry', all([p.value])); };

// a node of acorn by its form and those of its children; a declaration may stand in a body alone
function shown(n, declares) {
  switch (n.type) {
    case 'EmptyStatement': return 'Empty';
    case 'BlockStatement': return node('Block', all(n.body));
    case 'VariableDeclaration': return node('Var', n.declarations.map(bound));
    case 'ExpressionStatement': return node('Expression', all([n.expression]));
    case 'IfStatement': return node('If', all([n.test, n.consequent, n.alternate]));
    case 'DoWhileStatement': return node('DoWhile', all([n.body, n.test]));
    case 'WhileStatement': return node('While', all([n.test, n.body]));
    case 'ForStatement':
      if (n.init && n.init.type === 'VariableDeclaration') return node('For', [node('Bindings', n.init.declarations.map(bound)), ...all([n.test, n.update, n.body])]);
      return node('For', all([n.init, n.test, n.update, n.body]));
    case 'ContinueStatement': if (n.label) throw new Meant(); return 'Continue';
    case 'BreakStatement': if (n.label) throw new Meant(); return 'Break';
    case 'ReturnStatement': return node('Return', all([n.argument]));
    case 'SwitchStatement': return node('Switch', [shown(n.discriminant), ...n.cases.map(c => node(c.test ? 'Case' : 'Default', all([c.test, ...c.consequent])))]);
    case 'ThrowStatement': return node('Throw', all([n.argument]));
    case 'TryStatement': return node('Try', [shown(n.block), ...(n.handler ? [node('Catch', all([n.handler.body]))] : []), ...all([n.finalizer])]);
    case 'FunctionDeclaration': if (!declares) throw new Meant(); return whole('FunctionDeclaration', n);
    case 'FunctionExpression': return whole('Function', n);
    case 'ThisExpression': return 'This';
    case 'Identifier': return 'Name';
    case 'Literal':
      if (n.regex) throw new Meant();
      return n.value === null ? 'Null' : { boolean: 'Boolean', string: 'Text', number: 'Number' }[typeof n.value];
    case 'ArrayExpression': if (n.elements.includes(null)) throw new Meant(); return node('Array', all(n.elements));
    case 'ObjectExpression': return node('Object', n.properties.map(entry));
    case 'MemberExpression': return n.computed ? node('Index', all([n.object, n.property])) : node('Member', all([n.object]));
    case 'NewExpression': return node('New', all([n.callee, ...n.arguments]));
    case 'CallExpression': return node('Call', all([n.callee, ...n.arguments]));
    case 'UpdateExpression': return node(n.prefix ? 'Prefix' : 'Postfix', all([n.argument]));
    case 'UnaryExpression': return node('Unary', all([n.argument]));
    case 'BinaryExpression': return node('Binary', all([n.left, n.right]));
    case 'LogicalExpression': return node('Logical', all([n.left, n.right]));
    case 'ConditionalExpression': return node('Conditional', all([n.test, n.consequent, n.alternate]));
    case 'AssignmentExpression': return node(n.operator === '=' ? 'Assign' : 'Compound', all([n.left, n.right]));
    case 'SequenceExpression': return n.expressions.slice(1).reduce((left, e) => node('Comma', [left, shown(e)]), shown(n.expressions[0]));
    default: throw new Meant();
  }
}
const bound = d => node('Declarator', all([d.init]));

// the tree of a text, or nothing where it has none; labels and the like are Meant
const tree = text => { const program = parsed(text); return program && inner(program.body).join(' '); };

// THE FIRST TOKEN WITH WHICH NOTHING GOES ON

// what may close what is open, inside out
function closers(tokens) {
  const open = [];
  for (const t of tokens) {
    if ('([{'.includes(t)) open.push(t);
    else if (')]}'.includes(t)) open.pop();
  }
  return open.reverse().map(t => ({ '(': ')', '[': ']', '{': '}' })[t]);
}
const PIECES = ['', '} while ( a', 'a', ';', 'a ;', ': a', '. a', 'a : a', '( a', '( ) { }', '{ }', 'a ( ) { }', ') { }', 'a ) { }', ', a', '= a', '; ;', 'a ; ;', '( ; ;', 'a )', '( a )', '( a ) { }', '( a ) {', 'while ( a', '; while ( a', 'a ; while ( a', '{ } catch ( a ) { }', 'finally { }', 'catch ( a ) { }', '} finally {', '} catch ( a ) {', '? a : a', '1 : a', '? a', 'case a :', 'a ) {', '( a ) a', '; else a', 'a = 1'];
const TAILS = ['', ' ;', ' a', ' a ;', ' { }', ' while ( a )', ' ; while ( a )', ' finally { }', ' : a', ' . a', ' ; ; ) a', ' ; ) a', '; a ) a'];
// some list of tokens behind these makes a script
function goesOn(text, tokens) {
  const closes = closers(tokens);
  for (const piece of PIECES) {
    const more = closers([...tokens, ...piece.split(' ')]);
    const inside = more.length ? ['', ' a', ' ;', ' : a', ' ; ;', ' ;;a'] : [''];
    for (const into of inside) for (const tail of TAILS) {
      let all = text + ' ' + piece + into;
      // what is open closes one by one, with an operand behind a header or not
      for (const filler of ['', ' a', ' ;']) {
        let closed = all;
        for (const c of more) closed += ' ' + c + (c === ')' ? filler : '');
        try { if (tree(closed + tail) !== null) return true; } catch (e) { if (!(e instanceof Meant)) throw e; }
      }
    }
  }
  return false;
}

// the place of the first such token
function refusal(text, places, tokens) {
  for (let i = 0; i < tokens.length; i++) {
    const end = places[i] + tokens[i].length;
    if (!goesOn(text.slice(0, end), tokens.slice(0, i + 1))) return places[i];
  }
  return text.length;
}

const accepted = [], refused = [];
let meant = 0;
for (let made = 0; made < count; made++) {
  let tokens = chance(4) ? some(9, () => one(WORDS)) : some(3, () => chance(5) ? declaration(3) : statement(3)).flat();
  if (chance(2)) tokens = broken(tokens);
  const { text, places } = spelled(tokens);
  if (text.length > 160) { made--; continue; }
  try {
    const found = tree(text);
    if (found !== null) accepted.push([text, found]);
    else {
      const first = place;
      if (!tokens.includes('/') && text.length <= 60 && refusal(text, places, tokens) === first) refused.push([text, first]);
      else meant++;
    }
  } catch (e) {
    if (!(e instanceof Meant)) throw e;
    meant++;
  }
}
const cell = text => text === '' ? '(empty)' : '`' + text.replace(/[\\|]/g, '\\$&').replace(/\n/g, '\\n') + '`';
const table = (heading, column, rows) => `## Trees: ${heading}\n\n| script | ${column} |\n|---|---|\n${rows.map(([s, t]) => `| ${cell(s)} | ${t || '(empty)'} |\n`).join('')}\n`;
fs.writeFileSync(file, table('as acorn finds them', 'statements', accepted) + table('refused where acorn refuses', 'refusal', refused.map(([s, p]) => [s, `Unexpected ${p}`])));
console.log(`${accepted.length} with a tree, ${refused.length} refused, ${meant} left out`);
