'use strict';
// Which declaration each name of a file means, and which names nested functions capture.

// A declaration. A shared one is stored in a place of its own, since nested functions see its changes, or since it is
// used before it is bound.
class Binding {
  constructor(name, kind, owner, node) {
    this.name = name;
    this.kind = kind;
    this.owner = owner;
    this.declared = [node];
    this.uses = [];
    this.module = null;
    this.isReassigned = false;
    this.isReassignedInside = false;
    this.isCaptured = false;
    this.isHoisted = false;
  }

  get isShared() {
    return this.isHoisted || this.isReassignedInside || (this.isCaptured && this.isReassigned);
  }
}

class Scope {
  constructor(parent, owner) {
    this.parent = parent;
    this.owner = owner;
    this.names = new Map();
  }

  declare(id, kind) {
    const found = this.names.get(id.name);
    if (found) {
      found.declared.push(id);
      if (kind === 'function') found.kind = kind;
    } else {
      this.names.set(id.name, new Binding(id.name, kind, this.owner, id));
    }
    return this.names.get(id.name);
  }

  find(name) {
    for (let scope = this; scope; scope = scope.parent) if (scope.names.has(name)) return scope.names.get(name);
    return null;
  }
}

const FUNCTIONS = new Set(['FunctionDeclaration', 'FunctionExpression', 'ArrowFunctionExpression']);
const isFunction = node => FUNCTIONS.has(node.type);

function* childrenOf(node) {
  for (const [key, value] of Object.entries(node)) {
    if (LINKS.has(key)) continue;
    for (const part of Array.isArray(value) ? value : [value]) if (part && typeof part.type === 'string') yield part;
  }
}

// What this file adds to nodes, which is no part of them.
const LINKS = new Set(['binding', 'usedIn', 'parentFunction', 'captures', 'scope', 'ownName']);

// The identifiers that a pattern binds.
function idsOf(pattern) {
  switch (pattern && pattern.type) {
    case 'Identifier': return [pattern];
    case 'ArrayPattern': return pattern.elements.flatMap(idsOf);
    case 'ObjectPattern': return pattern.properties.flatMap(it => idsOf(it.type === 'RestElement' ? it : it.value));
    case 'AssignmentPattern': return idsOf(pattern.left);
    case 'RestElement': return idsOf(pattern.argument);
    default: return [];
  }
}

// Walks a file and links names to their declarations.
class Linker {
  constructor() {
    this.functions = [];
  }

  // Declares each var below a node, but not in the functions there.
  declareVars(node, scope) {
    if (isFunction(node) || node.type === 'ClassBody') return;
    if (node.type === 'VariableDeclaration' && node.kind === 'var') {
      node.declarations.flatMap(it => idsOf(it.id)).forEach(id => scope.declare(id, 'var'));
    }
    for (const child of childrenOf(node)) this.declareVars(child, scope);
  }

  declareStatement(statement, scope) {
    switch (statement.type) {
      case 'ExportNamedDeclaration': case 'ExportDefaultDeclaration':
        if (statement.declaration) this.declareStatement(statement.declaration, scope);
        break;
      case 'LabeledStatement': this.declareStatement(statement.body, scope); break;
      case 'VariableDeclaration':
        if (statement.kind !== 'var') {
          statement.declarations.flatMap(it => idsOf(it.id)).forEach(id => scope.declare(id, statement.kind));
        }
        break;
      case 'FunctionDeclaration': if (statement.id) scope.declare(statement.id, 'function'); break;
      case 'ClassDeclaration': if (statement.id) scope.declare(statement.id, 'class'); break;
      case 'ImportDeclaration': statement.specifiers.forEach(it => this.declareImport(it, statement, scope)); break;
    }
  }

  declareImport(specifier, statement, scope) {
    const { name, value } = specifier.imported || specifier.local;
    const binding = scope.declare(specifier.local, 'import');
    binding.module = { name: String(name || value), module: String(statement.source.value) };
  }

  use(id, scope, owner, isWritten) {
    const binding = scope.find(id.name);
    Object.assign(id, { binding, usedIn: owner });
    if (!binding) return;
    binding.uses.push(id);
    binding.isReassigned ||= isWritten;
    if (binding.owner === owner) return;
    binding.isCaptured = true;
    binding.isReassignedInside ||= isWritten;
    for (let it = owner; it && it !== binding.owner; it = it.parentFunction) it.captures.add(binding);
  }

  // A pattern whose names are bound, or written.
  pattern(node, scope, owner, isWritten) {
    switch (node && node.type) {
      case undefined: case null: break;
      case 'Identifier':
        if (isWritten) this.use(node, scope, owner, true);
        else Object.assign(node, { binding: scope.find(node.name), usedIn: owner });
        break;
      case 'ArrayPattern': node.elements.forEach(it => this.pattern(it, scope, owner, isWritten)); break;
      case 'ObjectPattern':
        for (const it of node.properties) {
          if (it.computed) this.visit(it.key, scope, owner);
          this.pattern(it.type === 'RestElement' ? it : it.value, scope, owner, isWritten);
        }
        break;
      case 'AssignmentPattern':
        this.visit(node.right, scope, owner);
        this.pattern(node.left, scope, owner, isWritten);
        break;
      case 'RestElement': this.pattern(node.argument, scope, owner, isWritten); break;
      default: this.visit(node, scope, owner);
    }
  }

  visitFunction(node, scope, owner) {
    Object.assign(node, { parentFunction: owner, captures: new Set() });
    this.functions.push(node);
    let outer = scope;
    if (node.type === 'FunctionExpression' && node.id) {
      outer = new Scope(scope, node);
      node.ownName = outer.declare(node.id, 'self');
      node.id.binding = node.ownName;
    }
    node.scope = new Scope(outer, node);
    node.params.flatMap(idsOf).forEach(id => node.scope.declare(id, 'param'));
    if (node.body.type === 'BlockStatement') {
      this.declareVars(node.body, node.scope);
      node.body.body.forEach(it => this.declareStatement(it, node.scope));
    }
    node.params.forEach(it => this.pattern(it, node.scope, node, false));
    if (node.body.type === 'BlockStatement') node.body.body.forEach(it => this.visit(it, node.scope, node));
    else this.visit(node.body, node.scope, node);
  }

  visitBlock(statements, scope, owner) {
    const inner = new Scope(scope, owner);
    statements.forEach(it => this.declareStatement(it, inner));
    statements.forEach(it => this.visit(it, inner, owner));
  }

  visitSwitch(node, scope, owner) {
    this.visit(node.discriminant, scope, owner);
    const inner = new Scope(scope, owner);
    node.cases.flatMap(it => it.consequent).forEach(it => this.declareStatement(it, inner));
    node.cases.forEach(it => this.visitAll([it.test, ...it.consequent], inner, owner));
  }

  visitLoop(node, scope, owner) {
    const inner = new Scope(scope, owner);
    const first = node.init || node.left;
    if (first) this.declareStatement(first, inner);
    if (node.type === 'ForStatement') {
      return this.visitAll([node.init, node.test, node.update, node.body], inner, owner);
    }
    this.visit(node.right, inner, owner);
    if (first.type === 'VariableDeclaration') this.pattern(first.declarations[0].id, inner, owner, false);
    else this.pattern(first, inner, owner, true);
    return this.visit(node.body, inner, owner);
  }

  visitDeclarator(node, kind, scope, owner) {
    this.pattern(node.id, scope, owner, false);
    if (!node.init) return;
    if (isFunction(node.init) && node.id.type === 'Identifier') node.init.givenName = node.id.name;
    this.visit(node.init, scope, owner);
    for (const id of idsOf(node.id)) {
      if (kind !== 'var' || !id.binding) continue;
      // A var that is bound twice is a variable.
      id.binding.isReassigned ||= id.binding.isBound;
      id.binding.isBound = true;
    }
  }

  visitCatch(node, scope, owner) {
    const inner = new Scope(scope, owner);
    idsOf(node.param).forEach(id => inner.declare(id, 'catch'));
    if (node.param) this.pattern(node.param, inner, owner, false);
    this.visit(node.body, inner, owner);
  }

  visitWritten(target, scope, owner) {
    if (target.type === 'Identifier') this.use(target, scope, owner, true);
    else this.pattern(target, scope, owner, true);
  }

  visitAll(nodes, scope, owner) {
    for (const it of nodes) if (it) this.visit(it, scope, owner);
  }

  visit(node, scope, owner) {
    if (isFunction(node)) {
      if (node.type === 'FunctionDeclaration' && node.id) node.id.binding = scope.find(node.id.name);
      return this.visitFunction(node, scope, owner);
    }
    switch (node.type) {
      case 'Identifier': return this.use(node, scope, owner, false);
      case 'BlockStatement': case 'StaticBlock': return this.visitBlock(node.body, scope, owner);
      case 'SwitchStatement': return this.visitSwitch(node, scope, owner);
      case 'ForStatement': case 'ForInStatement': case 'ForOfStatement': return this.visitLoop(node, scope, owner);
      case 'CatchClause': return this.visitCatch(node, scope, owner);
      case 'VariableDeclaration':
        return node.declarations.forEach(it => this.visitDeclarator(it, node.kind, scope, owner));
      case 'AssignmentExpression':
        this.visitWritten(node.left, scope, owner);
        return this.visit(node.right, scope, owner);
      case 'UpdateExpression': return this.visitWritten(node.argument, scope, owner);
      case 'MemberExpression':
        return this.visitAll([node.object, node.computed && node.property], scope, owner);
      case 'Property': case 'MethodDefinition': case 'PropertyDefinition':
        return this.visitAll([node.computed && node.key, node.value], scope, owner);
      case 'LabeledStatement': return this.visit(node.body, scope, owner);
      case 'BreakStatement': case 'ContinueStatement': case 'MetaProperty': case 'ImportDeclaration':
      case 'ExportAllDeclaration': return undefined;
      case 'ExportNamedDeclaration': return this.visitAll([node.declaration], scope, owner);
      default: return this.visitAll(childrenOf(node), scope, owner);
    }
  }
}

// The functions of a file, whose names are linked.
function functionsOf(program) {
  const linker = new Linker();
  const top = new Scope(null, null);
  linker.declareVars(program, top);
  program.body.forEach(it => linker.declareStatement(it, top));
  program.body.forEach(it => linker.visit(it, top, null));
  return linker.functions;
}

module.exports = { functionsOf, idsOf, isFunction };
