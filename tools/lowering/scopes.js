'use strict';
// Guesses the reactive scopes of a function. React Compiler infers them from what may change what. Here a scope begins
// where a value is made, or something is called, and ends at the last row of the same list that changes this value.
const { Type } = require('./environment.js');
const { isHookCall } = require('./reactive.js');

const MAKING = new Set([
  'ArrayExpression', 'ObjectExpression', 'FunctionExpression', 'NewExpression', 'JsxExpression', 'JsxFragment',
  'RegExpLiteral', 'TaggedTemplateExpression',
]);
const VALUES = new Set(['Logical', 'Ternary', 'Optional', 'Sequence']);
const LOOPS = new Set(['DoWhile', 'While', 'For', 'ForOf', 'ForIn']);
const STORES = new Set(['PropertyStore', 'ComputedStore', 'PropertyDelete', 'ComputedDelete']);
const ARMS = ['consequent', 'alternate', 'loop_block', 'block', 'handler'];

class Guess {
  constructor(graph) {
    Object.assign(this, { graph, env: graph.env, rows: new Map(), sources: new Map(), changes: new Map() });
    for (const block of graph.ordered) block.rows.forEach(row => this.note(row));
  }

  // Notes what a row loads, or which value it changes.
  note({ id, lvalue, value }) {
    this.rows.set(id, { lvalue, value });
    if (['LoadLocal', 'LoadContext'].includes(value.k)) this.sources.set(lvalue.identifier, value.place.identifier);
    const changed = STORES.has(value.k) ? value.object : value.receiver;
    if (!changed || changed.effect === 'ConditionallyMutate') return;
    let name = changed.identifier;
    while (this.sources.has(name)) name = this.sources.get(name);
    this.changes.set(name, [...(this.changes.get(name) || []), id]);
  }

  // The items of a list, and the terminal that ends it. An item is a row, or a statement or value with its own blocks.
  list(first) {
    const items = [];
    for (let id = first; ;) {
      const { rows, terminal } = this.graph.blocks.get(id);
      rows.forEach(row => items.push({ row, from: row.id, to: row.id }));
      if (terminal.k === 'MaybeThrow') {
        items.at(-1).thrown = terminal;
      } else if (terminal.fallthrough === undefined) {
        return { first, items, end: terminal };
      } else {
        items.push({ terminal, from: terminal.id, to: this.graph.blocks.get(terminal.fallthrough).first - 1 });
      }
      id = terminal.k === 'MaybeThrow' ? terminal.continuation : terminal.fallthrough;
    }
  }

  rowsIn({ from, to }) {
    return [...this.rows].filter(([id]) => from <= id && id <= to).map(([, row]) => row);
  }

  isMaking({ lvalue, value }) {
    if (MAKING.has(value.k)) return true;
    if (value.k !== 'CallExpression' && value.k !== 'MethodCall') return false;
    const called = this.env.typeOf(value.callee || value.property);
    return ![Type.HOOK, Type.NO_ALIAS].includes(called) && this.env.typeOf(lvalue) !== Type.PRIMITIVE;
  }

  // The name of the value that an item makes, if it makes one.
  madeBy(item) {
    if (item.row) return this.isMaking(item.row) ? item.row.lvalue.identifier : null;
    const isMaking = VALUES.has(item.terminal.k) && this.rowsIn(item).some(it => this.isMaking(it));
    return isMaking ? item.terminal.gives : null;
  }

  // The names that hold the value that the item at an index makes.
  holders(items, index, made) {
    const stored = items.slice(index + 1, index + 3).map(it => it.row && it.row.value)
      .find(it => it && it.k === 'StoreLocal' && it.value.identifier === made);
    return stored ? [made, stored.lvalue.place.identifier] : [made];
  }

  // The scopes of a list, each from an item to an item. One that would end after one around it widens that one.
  intervals({ items, end }) {
    const found = [];
    // A scope doesn't go on past a statement after which nothing is reached.
    const last = end.k === 'Unreachable' ? items.length - 2 : items.length - 1;
    items.forEach((item, index) => {
      const made = index <= last ? this.madeBy(item) : null;
      if (made === null) return;
      const names = this.holders(items, index, made);
      const changes = names.flatMap(it => this.changes.get(it) || []);
      const until = items.findLastIndex(it => changes.some(id => it.from <= id && id <= it.to));
      const scope = { first: index, last: Math.min(Math.max(index, until), last), names };
      const around = found.filter(it => it.last >= index);
      const crossed = around.filter(it => it.last < scope.last);
      crossed.forEach(it => { it.last = scope.last; });
      if (crossed.length) crossed.at(-1).names.push(...names);
      else found.push(scope);
    });
    return found;
  }

  // Adds the scopes of a list and of the lists in it.
  addTo(first, isInLoop) {
    const list = this.list(first);
    const scopes = this.intervals(list);
    for (const scope of scopes) {
      const inside = this.rowsIn({ from: list.items[scope.first].from, to: list.items[scope.last].to });
      scope.isPruned = isInLoop || inside.some(it => isHookCall(this.env, it.value));
      scope.index = this.env.scopes.push({ range: null, dependencies: [], declarations: [], reassignments: [] }) - 1;
      scope.names.forEach(name => { this.env.identifiers[name].scope ??= scope.index; });
    }
    const statements = list.items.filter(it => it.terminal && !VALUES.has(it.terminal.k)).map(it => it.terminal);
    rewrite(this.graph, list, scopes);
    for (const terminal of statements) {
      listsIn(terminal).forEach(it => this.addTo(it, isInLoop || LOOPS.has(terminal.k)));
    }
  }
}

// The first blocks of the lists in a statement.
function listsIn(terminal) {
  const blocks = terminal.k === 'Switch' ? terminal.cases.map(it => it.block) : ARMS.map(it => terminal[it]);
  return blocks.filter(it => it !== undefined && it !== terminal.fallthrough);
}

// Puts the items of a list into blocks again, with a block for each scope and one after it.
function rewrite(graph, { first, items, end }, scopes) {
  let block = emptied(graph, first);
  const goOn = (terminal, next) => {
    block.terminal = terminal;
    block = emptied(graph, next);
  };
  const open = [];
  items.forEach(({ row, thrown, terminal }, index) => {
    for (const scope of scopes.filter(it => it.first === index)) {
      const [inside, after] = [graph.newBlock(), graph.newBlock()];
      [inside, after].forEach(it => graph.blocks.set(it.id, it));
      open.push({ ...scope, after });
      const k = scope.isPruned ? 'PrunedScope' : 'Scope';
      goOn({ k, fallthrough: after.id, block: inside.id, scope: scope.index }, inside.id);
    }
    if (row) block.rows.push(row);
    if (thrown) goOn(thrown, thrown.continuation);
    if (terminal) goOn(terminal, terminal.fallthrough);
    while (open.length && open.at(-1).last === index) {
      const { after } = open.pop();
      goOn({ k: 'Goto', block: after.id, variant: 'Break' }, after.id);
    }
  });
  block.terminal = end;
}

function emptied(graph, id) {
  const block = graph.blocks.get(id);
  block.rows = [];
  return block;
}

function addScopes(graph) {
  new Guess(graph).addTo(graph.entry, false);
}

module.exports = { addScopes };
