'use strict';
// The blocks of a graph: which are reached, and their order of evaluation.

// The blocks to which a terminal leads.
function successors(terminal) {
  switch (terminal.k) {
    case 'If': case 'Branch': return [terminal.consequent, terminal.alternate];
    case 'Switch': return terminal.cases.map(it => it.block);
    case 'DoWhile': return [terminal.loop_block];
    case 'While': case 'Logical': case 'Ternary': case 'Optional': return [terminal.test];
    case 'For': case 'ForOf': case 'ForIn': return [terminal.init];
    case 'Sequence': case 'Label': case 'Scope': case 'PrunedScope': case 'Try': case 'Goto': return [terminal.block];
    case 'MaybeThrow': return [terminal.continuation, terminal.handler].filter(it => it !== null);
    default: return [];
  }
}

function reached(graph) {
  const found = new Set([graph.entry]);
  for (const id of found) successors(graph.blocks.get(id).terminal).forEach(it => found.add(it));
  return found;
}

function labeled(block, { fallthrough }) {
  return { k: 'Label', block, fallthrough };
}

// A terminal without the parts that are never reached.
function pruned(terminal, found) {
  switch (terminal.k) {
    case 'For':
      return found.has(terminal.update) ? terminal : { ...terminal, update: null };
    case 'DoWhile':
      return found.has(terminal.test) ? terminal : labeled(terminal.loop_block, terminal);
    case 'Try':
      return found.has(terminal.handler) ? terminal : labeled(terminal.block, terminal);
    default: return terminal;
  }
}

// Takes out the blocks that are never reached. A fallthrough that isn't reached ends in Unreachable.
function prune(graph) {
  const found = reached(graph);
  const outOfTry = new Set();
  for (const id of [...graph.blocks.keys()]) if (!found.has(id)) graph.blocks.delete(id);
  for (const block of [...graph.blocks.values()]) {
    const before = block.terminal;
    block.terminal = pruned(before, found);
    if (before.k === 'Try' && block.terminal.k === 'Label') outOfTry.add(before.fallthrough);
    const after = before.fallthrough;
    if (after !== undefined && !graph.blocks.has(after)) {
      graph.blocks.set(after, { id: after, rows: [], terminal: { k: 'Unreachable' } });
    }
  }
  for (const { terminal } of graph.blocks.values()) {
    if (terminal.k === 'Goto' && terminal.variant === 'Try' && outOfTry.has(terminal.block)) terminal.variant = 'Break';
  }
}

// Meets the blocks as the nested statements have them, each once, with the scopes around it.
class Walk {
  constructor(graph) {
    this.graph = graph;
    this.found = new Set();
    this.around = [];
  }

  meet(id) {
    const block = this.graph.blocks.get(id);
    if (!this.found.has(block)) block.around = this.around;
    this.found.add(block);
    return block.terminal;
  }

  // Meets the blocks of a value, and returns the terminal that ends it.
  value(first) {
    let terminal = this.meet(first);
    while (terminal.k !== 'Branch' && terminal.k !== 'Goto') {
      if (terminal.k !== 'MaybeThrow') this.nested(terminal);
      terminal = this.meet(terminal.k === 'MaybeThrow' ? terminal.continuation : terminal.fallthrough);
    }
    return terminal;
  }

  // Meets the parts of a terminal that is a value.
  nested(terminal) {
    if (terminal.k === 'Sequence') return this.value(terminal.block);
    const { consequent, alternate } = this.value(terminal.test);
    this.value(consequent);
    return terminal.isShared ? undefined : this.value(alternate);
  }

  inScope(terminal) {
    const before = this.around;
    this.around = [...before, terminal.scope];
    this.list(terminal.block);
    this.around = before;
  }

  // Meets the parts of a statement, in their order.
  parts(terminal) {
    const { k, fallthrough } = terminal;
    const lists = ids => ids.filter(it => it !== fallthrough).forEach(it => this.list(it));
    switch (k) {
      case 'If': return lists([terminal.consequent, terminal.alternate]);
      case 'Switch': return lists(terminal.cases.map(it => it.block));
      case 'Label': return lists([terminal.block]);
      case 'Try': return lists([terminal.block, terminal.handler]);
      case 'Scope': case 'PrunedScope': return this.inScope(terminal);
      case 'DoWhile': this.list(terminal.loop_block); return this.value(terminal.test);
      case 'While': this.value(terminal.test); return this.list(terminal.loop_block);
      case 'ForIn': this.value(terminal.init); return this.list(terminal.loop_block);
      case 'For': case 'ForOf':
        this.value(terminal.init);
        this.value(terminal.test);
        this.list(terminal.loop_block);
        return typeof terminal.update === 'number' ? this.value(terminal.update) : undefined;
      default: return this.nested(terminal);
    }
  }

  // Meets the blocks of a list of statements.
  list(first) {
    for (let id = first; id !== undefined && !this.found.has(this.graph.blocks.get(id));) {
      const terminal = this.meet(id);
      if (terminal.fallthrough !== undefined) this.parts(terminal);
      id = terminal.k === 'MaybeThrow' ? terminal.continuation : terminal.fallthrough;
    }
  }
}

// The blocks in the order of evaluation.
function inOrder(graph) {
  const walk = new Walk(graph);
  walk.list(graph.entry);
  return [...walk.found];
}

module.exports = { inOrder, prune };
