'use strict';
// The graph of one function as it grows: the current block, to which rows are added, and the blocks that are done.
const { Place, Type, withoutNulls } = require('./environment.js');
const { inOrder, prune } = require('./order.js');

// Rows of these kinds never throw.
const QUIET = new Set(['Primitive', 'ArrayExpression', 'ObjectExpression']);

class Graph {
  constructor(env, node) {
    Object.assign(this, { env, node, blocks: new Map(), params: [], context: [], directives: [], exits: [] });
    // The handler of the try around the current block, and the identifier that the last row or value gave.
    this.handler = null;
    this.last = null;
    this.current = this.newBlock();
    this.entry = this.current.id;
  }

  newBlock() {
    return { id: this.env.nextBlock++, rows: [], terminal: null, isAfterThrow: false };
  }

  // Ends the current block.
  end(terminal) {
    this.current.terminal = terminal;
    this.blocks.set(this.current.id, this.current);
  }

  // Ends the current block, and goes on in another one.
  goOn(terminal, block) {
    this.end(terminal);
    this.current = block;
  }

  // Ends the current block for good: what follows can't be reached.
  leave(terminal) {
    this.goOn(terminal, this.newBlock());
  }

  // Lowers a part into a block, which ends with the terminal that the part gives. Returns the block's number.
  within(block, part) {
    const before = this.current;
    this.current = block;
    this.end(part());
    this.current = before;
    return block.id;
  }

  jump(block, variant = 'Break') {
    return { k: 'Goto', block: block.id, variant };
  }

  // A row with that target. In a try each row ends its block.
  row(lvalue, value) {
    this.current.rows.push({ lvalue, value });
    this.last = lvalue.identifier;
    if (this.handler === null) return;
    const next = this.newBlock();
    next.isAfterThrow = true;
    const handler = QUIET.has(value.k) ? null : this.handler.id;
    this.goOn({ k: 'MaybeThrow', continuation: next.id, handler }, next);
  }

  // A row whose target is a new temporary, which is returned.
  give(value, type = Type.OTHER) {
    const place = this.env.newPlace(type);
    this.row(place.as('ConditionallyMutate'), value);
    return place;
  }

  undefined() {
    return this.give({ k: 'Primitive', value: 'Undefined' }, Type.PRIMITIVE);
  }

  // Stores a value as the answer of an arm.
  answer(place, value) {
    this.give({ k: 'StoreLocal', lvalue: { kind: 'Const', place: place.as('ConditionallyMutate') }, value });
  }

  // Ends the test of a value. The test has to be what the block's last row gives.
  branch(test, consequent, alternate) {
    const tested = this.last === test.identifier ? test : this.give({ k: 'LoadLocal', place: test });
    return { k: 'Branch', test: tested, consequent, alternate };
  }

  // A value whose block ends in a jump has to have a row in it.
  ensureRow(value) {
    if (!this.current.rows.length && !this.current.isAfterThrow) this.give({ k: 'LoadLocal', place: value });
  }

  // Where a break or continue of that label leads, or of none.
  exit(kind, label) {
    const fits = it => (label ? it.label === label : kind === 'continue' || !it.isLabel) && it[kind];
    const found = [...this.exits].reverse().find(fits);
    return found && found[kind];
  }

  // Lowers a part that a break or continue may leave.
  breakable(exit, part) {
    this.exits.push(exit);
    const result = part();
    this.exits.pop();
    return result;
  }

  // Takes out what is never reached, and numbers rows and terminals in the order of evaluation.
  number() {
    prune(this);
    this.ordered = inOrder(this);
    let id = 1;
    for (const block of this.ordered) {
      block.first = id;
      for (const row of block.rows) Object.assign(row, { id: id++, around: block.around });
      block.terminal.id = id++;
    }
  }

  json() {
    const instructions = [];
    const blocks = this.ordered.map(block => {
      const rows = block.rows.map(({ id, lvalue, value }) => instructions.push({ id, lvalue, value }) - 1);
      return { id: block.id, instructions: rows, terminal: terminalOf(block.terminal) };
    });
    return withoutNulls({
      id: this.node.id ? this.node.id.name : null,
      name_hint: this.node.id ? null : this.node.givenName,
      params: this.params, generator: Boolean(this.node.generator), is_async: Boolean(this.node.async),
      context: this.context, body: { entry: this.entry, blocks }, instructions, directives: this.directives,
    });
  }
}

// A terminal without what only this program knows of it.
function terminalOf({ isShared, gives, cases, ...terminal }) {
  return withoutNulls({ ...terminal, cases: cases && cases.map(withoutNulls) });
}

module.exports = { Graph, Place };
