// The tokens of a file, each with the class by which it's coloured (docs/language.md, 'Tokens').
'use strict';

const TOKEN = /(?<comment>\/\/[^\n]*)|(?<number>[0-9]+)|(?<mark>[()[\]{},;:=|+#])|(?<name>[\p{XID_Start}_]\p{XID_Continue}*)/gu;
const DECLARATIONS = new Set('free type process opponent schedule derivation'.split(' '));
const ASSERTIONS = new Set('begin end check cast'.split(' '));
const FORMS = new Set('out inp repeat split match case decrypt new stop is inl inr'.split(' '));
const TYPES = new Set('Un Key Nonce'.split(' '));
const WORDS_OF_2 = new Map([['hash', 'form'], ['many', 'form'], ['endmany', 'assertion']]);
const STEPS = new Set(['act', 'talk']);
const RULE = /^(Proc|Msg)[A-Z]\w*$/;

// The class of a word: declaration, assertion, form, type, step, rule or name. `part` is the declaration that it's in.
function classOfWord(word, second, part, depth) {
  if (TYPES.has(word)) return 'type';
  if (DECLARATIONS.has(word)) return 'declaration';
  if (ASSERTIONS.has(word)) return 'assertion';
  if (FORMS.has(word)) return 'form';
  if (second && WORDS_OF_2.has(word)) return WORDS_OF_2.get(word);
  if (part === 'schedule' && STEPS.has(word)) return 'step';
  if (part === 'derivation' && depth === 0 && RULE.test(word)) return 'rule';
  return 'name';
}

// All tokens and comments of a text, as { at, word, kind }. What is no token is left out.
function tokensOf(text) {
  const found = [];
  for (const it of text.matchAll(TOKEN)) {
    const kind = Object.keys(it.groups).find((name) => it.groups[name] !== undefined);
    found.push({ at: it.index, word: it[0], kind });
  }
  const first = found.filter((it) => it.kind !== 'comment').slice(0, 3);
  const second = first.map((it) => it.word.replace(/^0+(?=.)/, '')).join(' ') === 'version 2 ;';
  let part = '';
  let depth = 0;
  for (const it of found) {
    if (it.word === '[') depth++;
    if (it.word === ']') depth--;
    if (it.kind !== 'name') continue;
    it.kind = second && it === first[0] ? 'declaration' : classOfWord(it.word, second, part, depth);
    if (it.word === 'schedule' || it.word === 'derivation') part = it.word;
  }
  return found;
}

// The offset, in a JavaScript string, of a line and a column as the program counts them: from 1, in characters, and a
// line feed alone ends a line.
function offsetOf(text, line, column) {
  let start = 0;
  for (let number = 1; number < line; number++) start = text.indexOf('\n', start) + 1;
  for (let left = column - 1; left > 0 && start < text.length; left--) start += text.codePointAt(start) > 0xffff ? 2 : 1;
  return start;
}

// The line of an offset, from 0, and its character in that line, from 0.
function placeOf(text, offset) {
  const start = text.lastIndexOf('\n', offset - 1) + 1;
  return { line: text.slice(0, offset).split('\n').length - 1, character: offset - start };
}

// Where the token at an offset ends; one character on, where there is none.
function endOfToken(text, offset) {
  const token = new RegExp(TOKEN.source, 'uy');
  token.lastIndex = offset;
  const found = token.exec(text);
  const length = found ? found[0].length : text.codePointAt(offset) > 0xffff ? 2 : 1;
  return Math.min(offset + length, text.length);
}
