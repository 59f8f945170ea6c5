// Reads the process, the opponent and the schedule of a file that the program has accepted, for the chart of a replay.
// Types say nothing of how a process runs, so they are passed over.
'use strict';

class Reader {
  constructor(text) {
    const all = tokensOf(text);
    this.text = text;
    this.tokens = all.filter((it) => it.kind !== 'comment');
    this.comments = all.filter((it) => it.kind === 'comment');
    this.at = 0;
  }

  get word() {
    return this.at < this.tokens.length ? this.tokens[this.at].word : '';
  }

  // The next token, which is one of these words where some are given.
  take(...words) {
    const token = this.tokens[this.at];
    if (!token || (words.length && !words.includes(token.word))) throw new Error(`no ${words} at token ${this.at}`);
    this.at++;
    return token;
  }

  takes(word) {
    if (this.word !== word) return false;
    this.at++;
    return true;
  }

  // Where the token before this place ends.
  get end() {
    const token = this.tokens[this.at - 1];
    return token.at + token.word.length;
  }

  file() {
    const file = { free: [], process: null, opponent: null, steps: null };
    if (this.tokens.length && this.tokens[0].kind === 'declaration' && this.word === 'version') this.at = 3;
    for (;;) {
      if (this.takes('free')) file.free.push(...this.names());
      else if (this.takes('type')) this.abbreviation();
      else break;
    }
    this.take('process');
    file.process = this.processes();
    if (this.takes('opponent')) file.opponent = this.processes();
    if (this.takes('schedule')) file.steps = this.steps();
    return file;
  }

  names() {
    const names = [this.take().word];
    while (this.takes(',')) names.push(this.take().word);
    this.take(';');
    return names;
  }

  abbreviation() {
    this.take();
    this.take('=');
    this.type();
    this.take(';');
  }

  type() {
    const word = this.take().word;
    if (word === 'Key' || word === 'Nonce') this.brackets(this.take('(', '['));
    else if (word === '(') this.brackets();
  }

  // Passes over what stands between brackets, from behind the first one on.
  brackets() {
    for (let depth = 1; depth > 0; ) {
      const word = this.take().word;
      depth += '([{'.includes(word) ? 1 : ')]}'.includes(word) ? -1 : 0;
    }
  }

  message() {
    const word = this.take().word;
    if (word === 'inl' || word === 'inr') return { kind: word, part: this.message() };
    if (word === 'hash' && this.tokens[this.at - 1].kind === 'form') {
      this.take('(');
      const part = this.message();
      this.take(')');
      return { kind: 'hash', part };
    }
    if (word === '{') {
      const part = this.tuple('}');
      return { kind: 'sealed', part, key: this.message() };
    }
    if (word !== '(') return { kind: 'name', word };
    return this.takes(')') ? { kind: 'unit' } : this.tuple(')');
  }

  tuple(close) {
    const parts = [this.message()];
    while (this.takes(',')) parts.push(this.message());
    this.take(close);
    return parts.reduceRight((right, left) => ({ kind: 'pair', left, right }));
  }

  // P | Q | ..: each part has the comment that stands right before it.
  processes() {
    const from = this.tokens[this.at].at;
    const left = this.sequence();
    if (!this.takes('|')) return left;
    return { form: 'par', from, to: from, left, right: this.processes() };
  }

  sequence() {
    const comment = this.commentBefore();
    const process = this.word === '(' ? this.group() : this.form();
    if (comment && !process.comment) process.comment = comment;
    return process;
  }

  // The last comment between the token before this place and the one here.
  commentBefore() {
    const end = this.at ? this.end : 0;
    const found = this.comments.filter((it) => it.at >= end && it.at < this.tokens[this.at].at).pop();
    return found && this.text.lastIndexOf('\n', found.at) >= end ? spoken(found) : null;
  }

  group() {
    this.take('(');
    const process = this.processes();
    this.take(')');
    return process;
  }

  form() {
    const { at: from, word } = this.take();
    const node = { form: word, from };
    const read = FORM_READERS[word];
    if (!read) throw new Error(`no process starts with ${word}`);
    read(this, node);
    if (node.form === 'stop' || node.form === 'case') return node;
    if (node.form === 'out') return this.output(node);
    this.take(';');
    node.to = this.end;
    node.next = this.sequence();
    return node;
  }

  // `out M N; P` is `out M N` beside P.
  output(node) {
    node.to = this.end;
    if (!this.takes(';')) return node;
    node.to = this.end;
    return { form: 'par', from: node.from, to: node.to, left: node, right: this.sequence(), isSequel: true };
  }

  // `x: T`: the name.
  binder() {
    const { word } = this.take();
    this.take(':');
    this.type();
    return word;
  }

  binders(open, close) {
    this.take(open);
    const names = [this.binder()];
    while (this.takes(',')) names.push(this.binder());
    this.take(close);
    return names;
  }

  steps() {
    const steps = [];
    while (this.word === 'act' || this.word === 'talk') {
      const before = this.at ? this.end : 0;
      const { at, word: kind } = this.take();
      const places = [Number(this.take().word)];
      if (kind === 'talk') places.push(Number(this.take().word));
      this.take(';');
      steps.push({ kind, places, at, end: this.end, heading: this.headingBetween(before, at) });
    }
    return steps;
  }

  // The comments on lines of their own between two offsets.
  headingBetween(from, to) {
    const own = (it) => it.at >= from && it.at < to && !this.text.slice(this.text.lastIndexOf('\n', it.at) + 1, it.at).trim();
    return this.comments.filter(own).map(spoken).join(' ');
  }
}

// A comment without its mark.
function spoken(comment) {
  return comment.word.slice(2).trim().replace(/[.:]$/, '');
}

// What each form has behind its first word, up to its `;`.
const FORM_READERS = {
  out(reader, node) {
    node.channel = reader.message();
    node.datum = reader.message();
  },
  inp(reader, node) {
    node.channel = reader.message();
    node.channelEnd = reader.end;
    [node.name] = reader.binders('(', ')');
  },
  repeat(reader, node) {
    reader.take('inp');
    FORM_READERS.inp(reader, node);
  },
  split(reader, node) {
    node.message = reader.message();
    reader.take('is');
    node.names = reader.binders('(', ')');
  },
  match(reader, node) {
    node.message = reader.message();
    reader.take('is');
    reader.take('(');
    reader.binder();
    reader.take('=');
    node.first = reader.message();
    reader.take(',');
    node.name = reader.binder();
    reader.take(')');
  },
  case(reader, node) {
    node.message = reader.message();
    node.to = reader.end;
    node.sides = ['inl', 'inr'].map((side) => {
      reader.take('is');
      reader.take(side);
      const [name] = reader.binders('(', ')');
      reader.take(';');
      return { name, next: reader.sequence() };
    });
  },
  decrypt(reader, node) {
    node.message = reader.message();
    reader.take('is');
    [node.name] = reader.binders('{', '}');
    node.key = reader.message();
  },
  check(reader, node) {
    node.message = reader.message();
    reader.take('is');
    node.own = reader.message();
  },
  begin(reader, node) {
    node.label = reader.message();
  },
  end(reader, node) {
    node.label = reader.message();
  },
  endmany(reader, node) {
    node.label = reader.message();
  },
  cast(reader, node) {
    node.message = reader.message();
    reader.take('is');
    [node.name] = reader.binders('(', ')');
  },
  new(reader, node) {
    [node.name] = reader.binders('(', ')');
  },
  stop(reader, node) {
    node.to = reader.end;
  },
};
