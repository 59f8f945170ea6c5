// Reads narrations and benches, which aren't files: the words that are theirs, a bench's edits, and the whole of its parts.
'use strict';

// The items of a narration or a bench, each as its tokens without comments. An item ends with a `;`, and a part that is put
// with the last of its braces.
function itemsOf(tokens, isBench) {
  const items = [];
  let item = [];
  let depth = 0;
  for (const token of tokens.filter((it) => it.kind !== 'comment')) {
    item.push(token);
    depth = Math.max(0, depth + ({ '{': 1, '}': -1 }[token.word] || 0));
    const end = isBench && item[0].word === 'put' ? '}' : ';';
    if (depth > 0 || token.word !== end) continue;
    items.push(item);
    item = [];
  }
  return item.length ? [...items, item] : items;
}

// Gives the words that are asked for by their spelling the colour of declarations.
function colourItems(tokens, isBench) {
  const declare = (token, ...words) => {
    if (token && token.kind === 'name' && words.includes(token.word)) token.kind = 'declaration';
  };
  let isTold = false; // whether the lines of a narration have begun
  for (const item of itemsOf(tokens, isBench)) {
    if (isBench) declare(item[0], 'shared', 'put', 'drop');
    else if (!isTold) declare(item[0], 'shared', 'roles');
    else if (item[1] && item[1].word === 'to') [item[1], item[3], item.at(-3)].forEach((it) => declare(it, 'to', 'on', 'as'));
    isTold ||= item[0].word === 'roles';
  }
}

class Bench {
  constructor(text) {
    this.text = text;
    this.items = itemsOf(tokensOf(text), true);
    this.edits = this.items.filter(([first]) => first.word === 'put' || first.word === 'drop');
    this.shared = this.items.filter(([first]) => first.word === 'shared');
  }

  // What the program says of each edit, with the edit's place; nothing where these aren't as many.
  notes(output) {
    const lines = output.split('\n').slice(0, -1);
    if (lines.length !== this.edits.length) return [];
    return this.edits.map(([{ at }], index) => ({ from: at, words: lines[index], isGood: lines[index].endsWith('yes') }));
  }

  // The process of a part that is put, and whether processes stand beside one another in it.
  part(item) {
    let depth = 0;
    const isBar = (token) => {
      depth += { '(': 1, ')': -1 }[token.word] || 0;
      return token.word === '|' && depth === 0;
    };
    return { text: this.text.slice(item[2].at + 1, item.at(-1).at).trim(), hasBar: item.some(isBar) };
  }

  // The whole of the parts that are there after the last edit, as a file. A part that is put again keeps its turn.
  whole() {
    const parts = new Map();
    for (const item of this.edits) {
      const [does, name] = item;
      if (does.word === 'drop') parts.delete(name.word);
      else parts.set(name.word, this.part(item));
    }
    const first = this.shared[0] || this.edits[0];
    const spelled = (item) => this.text.slice(item[1].at, item.at(-2).at + item.at(-2).word.length);
    const names = this.shared.map((item) => `new (${spelled(item)}); `).join('');
    const isGroup = names && (parts.size > 1 || [...parts.values()].some((it) => it.hasBar));
    const body = Array.from(parts, ([name, { text }]) => `// ${name}\n  ${text}\n`).join('|\n  ') || 'stop\n';
    const head = first ? this.text.slice(0, first[0].at) : `${this.text}\n`;
    return `${head}process ${names}${isGroup ? '(' : ''}${parts.size ? '\n  ' : ''}${body}${isGroup ? ')\n' : ''}`;
  }
}
