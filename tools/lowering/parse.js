'use strict';
// Parses JavaScript with node's own parser, and the JSX in it.
const acorn = require('internal/deps/acorn/acorn/dist/acorn');

const OPTIONS = {
  ecmaVersion: 'latest', allowHashBang: true, allowReturnOutsideFunction: true, allowAwaitOutsideFunction: true,
  allowSuperOutsideMethod: true,
};

// The parser of JavaScript, which hands over to a reader of JSX where an expression begins with <.
class JsxParser extends acorn.Parser {
  parseExprAtom(...rest) {
    if (this.type !== acorn.tokTypes.relational || this.value !== '<') return super.parseExprAtom(...rest);
    const node = new JsxReader(this.input, this.start, this.options).element();
    this.pos = this.end = node.end;
    this.type = acorn.tokTypes.name;
    this.exprAllowed = false;
    this.next();
    return node;
  }
}

// Reads an element of JSX from a place in the text.
class JsxReader {
  constructor(text, at, options) {
    this.text = text;
    this.at = at;
    this.options = options;
  }

  fail() {
    throw new SyntaxError(`JSX that is not understood, at ${this.text.slice(this.at, this.at + 20)}`);
  }

  // Takes what a pattern finds right here.
  take(pattern) {
    const found = new RegExp(pattern, 'y');
    found.lastIndex = this.at;
    const match = found.exec(this.text);
    if (!match) return null;
    this.at = found.lastIndex;
    return match[0];
  }

  expect(pattern) {
    const found = this.take(pattern);
    if (found === null) this.fail();
    return found;
  }

  space() {
    this.take('(\\s|/\\*[^]*?\\*/|//[^\\n]*\\n)*');
  }

  element() {
    const start = this.at;
    this.expect('<');
    this.space();
    const name = this.take('[\\w$.:-]+') || '';
    const attributes = this.attributes();
    const children = this.take('/\\s*>') === null ? this.children(name) : null;
    return { type: 'JSXElement', start, end: this.at, name, tag: tagOf(name, start), attributes, children };
  }

  attributes() {
    const found = [];
    for (this.space(); !/[/>]/.test(this.text[this.at] || '>'); this.space()) found.push(this.attribute());
    return found;
  }

  attribute() {
    if (this.take('\\{\\s*\\.\\.\\.') !== null) return { type: 'JSXSpreadAttribute', argument: this.expression() };
    const start = this.at;
    const name = this.expect('[\\w$:-]+');
    this.space();
    if (this.take('=') === null) return attribute(name, literal(true, 'true', start));
    this.space();
    if (this.text[this.at] === '<') return attribute(name, this.element());
    const text = this.take('"[^"]*"|\'[^\']*\'');
    if (text !== null) return attribute(name, literal(text.slice(1, -1), text, start));
    this.expect('\\{');
    return attribute(name, this.expression());
  }

  // The expression here, and the brace that ends it.
  expression() {
    const node = JsxParser.parseExpressionAt(this.text, this.at, this.options);
    this.at = node.end;
    this.space();
    // Brackets around the expression end after its node.
    while (this.take('\\)') !== null) this.space();
    this.expect('\\}');
    return node;
  }

  children(name) {
    this.expect('>');
    const found = [];
    for (;;) {
      const text = trimmed(this.take('[^<{]*'));
      if (text) found.push({ type: 'JSXText', value: text, start: this.at, end: this.at });
      if (this.take('</\\s*') !== null) break;
      if (this.take('\\{(\\s|/\\*[^]*?\\*/)*\\}') !== null) continue;
      if (this.take('\\{') !== null) found.push(this.expression());
      else if (this.text[this.at] === '<') found.push(this.element());
      else this.fail();
    }
    if ((this.take('[\\w$.:-]+') || '') !== name) this.fail();
    this.expect('\\s*>');
    return found;
  }
}

function attribute(name, value) {
  return { type: 'JSXAttribute', name, value };
}

function literal(value, raw, start) {
  return { type: 'Literal', value, raw, start, end: start + raw.length };
}

// The expression that a tag is, where it names a component.
function tagOf(name, start) {
  if (name === '' || /^[a-z][\w:-]*$/.test(name)) return null;
  const [first, ...rest] = name.split('.').map(it => ({ type: 'Identifier', name: it, start, end: start }));
  const form = { type: 'MemberExpression', computed: false, start, end: start };
  return rest.reduce((object, property) => ({ ...form, object, property }), first);
}

// The text between tags, without line breaks and the spaces around them.
function trimmed(text) {
  if (!/\n/.test(text)) return text;
  return text.split('\n').map((line, index, all) => {
    const left = index > 0 ? line.trimStart() : line;
    return index < all.length - 1 ? left.trimEnd() : left;
  }).filter(Boolean).join(' ');
}

// Parses a file as a module or, where it is none, as a script.
function parse(text, isModule) {
  try {
    return JsxParser.parse(text, { ...OPTIONS, sourceType: 'module' });
  } catch (error) {
    if (isModule) throw error;
    return JsxParser.parse(text, { ...OPTIONS, sourceType: 'script' });
  }
}

module.exports = { parse };
