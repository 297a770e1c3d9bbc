'use strict';
// What the scopes of a function depend on, declare and reassign.
const { placesIn, operandsOf, operandsOfTerminal, targetsOf } = require('./operands.js');

class Description {
  constructor(graph, reactive) {
    Object.assign(this, { graph, env: graph.env, reactive, first: new Map(), loads: new Map(), told: new Set() });
    placesIn(graph.params).forEach(it => this.first.set(it.identifier, { id: 0, around: [] }));
    for (const { rows, terminal } of graph.ordered) {
      if (terminal.k === 'Scope' || terminal.k === 'PrunedScope') this.setRange(terminal);
      rows.forEach(row => this.noteDefinition(row));
    }
  }

  setRange(terminal) {
    const end = this.graph.blocks.get(terminal.fallthrough).first;
    this.env.scopes[terminal.scope].range = { start: terminal.id, end };
  }

  noteDefinition(row) {
    for (const { identifier } of [row.lvalue, ...targetsOf(row.value)]) {
      if (!this.first.has(identifier)) this.first.set(identifier, row);
    }
    if (['LoadLocal', 'PropertyLoad'].includes(row.value.k)) this.loads.set(row.lvalue.identifier, row.value);
  }

  // Whether something is told for the first time.
  isNew(...parts) {
    const key = parts.join(' ');
    return !this.told.has(key) && this.told.add(key);
  }

  // A temporary as a name, and the properties that lead from it.
  pathOf(identifier) {
    const path = [];
    let name = identifier;
    for (let load; this.env.identifiers[name].name === null && (load = this.loads.get(name));) {
      if (load.k === 'PropertyLoad') path.unshift({ property: load.property });
      name = (load.place || load.object).identifier;
    }
    return { name, path };
  }

  // A use of a name: scopes that make it, and not the use, declare it; scopes around the use alone depend on it.
  use({ identifier }, around) {
    const made = this.first.get(identifier);
    if (!made) return;
    made.around.filter(it => !around.includes(it)).forEach(it => this.declare(it, identifier, made.around.at(-1)));
    const { name, path } = this.pathOf(identifier);
    const root = this.first.get(name);
    if (!root || (root.value && ['LoadGlobal', 'Primitive', 'JSXText'].includes(root.value.k))) return;
    const isBefore = scope => !root.around.includes(scope) && root.id < this.env.scopes[scope].range.start;
    around.filter(isBefore).forEach(it => this.depend(it, name, path));
  }

  declare(scope, identifier, inner) {
    if (this.isNew('declares', scope, identifier)) {
      this.env.scopes[scope].declarations.push({ key: identifier, value: { identifier, scope: inner } });
    }
  }

  // Adds a path, unless one that it goes on from is listed; those that go on from it are dropped.
  depend(index, identifier, path) {
    const scope = this.env.scopes[index];
    const goesOnFrom = (longer, shorter) => longer.identifier === shorter.identifier
      && shorter.path.every((step, at) => longer.path[at] && longer.path[at].property.v === step.property.v);
    const added = { identifier, reactive: this.reactive.has(identifier), path };
    if (scope.dependencies.some(it => goesOnFrom(added, it))) return;
    scope.dependencies = [...scope.dependencies.filter(it => !goesOnFrom(it, added)), added];
  }

  // A name that is declared outside of the innermost scope around a row that writes it.
  reassign({ identifier }, around) {
    const scope = around.at(-1);
    const made = this.first.get(identifier);
    if (scope === undefined || made.around.includes(scope) || !this.isNew('reassigns', scope, identifier)) return;
    this.env.scopes[scope].reassignments.push(identifier);
  }

  tell() {
    for (const { rows, terminal, around } of this.graph.ordered) {
      for (const row of rows) {
        operandsOf(this.env, row.value).forEach(it => this.use(it, around));
        targetsOf(row.value).forEach(it => this.reassign(it, around));
      }
      operandsOfTerminal(terminal).forEach(it => this.use(it, around));
    }
  }
}

function describeScopes(graph, reactive) {
  new Description(graph, reactive).tell();
}

module.exports = { describeScopes };
