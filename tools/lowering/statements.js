'use strict';
// Lowers statements but loops.
const { Type } = require('./environment.js');
const { idsOf } = require('./names.js');

// The types of the second name that a hook's result is taken apart into.
const SETTERS = { useState: Type.SET_STATE, useReducer: Type.DISPATCH };

const SHORT = {
  EmptyStatement() {},
  BlockStatement(node) { this.statements(node.body); },
  ExpressionStatement(node) { this.expression(node.expression); },
  DebuggerStatement() { this.give({ k: 'Debugger' }); },
  FunctionDeclaration(node) { this.storeName(node.id, 'Function', this.nestedFunction(node, 'FunctionExpression')); },
  VariableDeclaration(node) { node.declarations.forEach(it => this.declarator(it, node.kind)); },
  ReturnStatement(node) {
    const value = node.argument ? this.expression(node.argument) : this.undefined();
    this.leave({ k: 'Return', value: value.as('Freeze') });
  },
  ThrowStatement(node) {
    if (this.handler !== null) this.unsupported('a throw in the block of a try');
    this.leave({ k: 'Throw', value: this.expression(node.argument) });
  },
  BreakStatement(node) { this.leave(this.jump(this.exit('break', node.label && node.label.name))); },
  ContinueStatement(node) { this.leave(this.jump(this.exit('continue', node.label && node.label.name), 'Continue')); },
};

module.exports = {
  statements(list) {
    const hoisted = this.hoistedOf(list);
    list.forEach((node, index) => {
      hoisted.filter(it => it.index === index).forEach(it => this.declareHoisted(it.id));
      this.statement(node);
    });
  },

  // A statement. A loop may have a label.
  statement(node, label = null) {
    const lower = SHORT[node.type] || this[node.type];
    return lower ? lower.call(this, node, label) : this.unsupported(node.type);
  },

  declarator({ id, init }, kind) {
    if (!init) {
      idsOf(id).forEach(it => this.declareName(it));
      return;
    }
    const value = this.expression(init);
    this.assign(kind === 'const' ? 'Const' : 'Let', id, value);
    const { callee } = init;
    const hook = callee && (callee.name || (callee.property && callee.property.name));
    const setter = id.type === 'ArrayPattern' && id.elements[1];
    if (Object.hasOwn(SETTERS, hook) && setter && this.isDirect(setter)) {
      this.env.identifiers[this.env.variable(setter.binding).identifier].type_ = SETTERS[hook];
    }
  },

  // A list of statements in a block of its own, after which control goes on elsewhere.
  listIn(block, next, part, variant = 'Break') {
    return this.within(block, () => {
      part();
      return this.jump(next, variant);
    });
  },

  IfStatement(node) {
    const next = this.newBlock();
    const test = this.expression(node.test);
    const arm = it => this.listIn(this.newBlock(), next, () => this.statement(it));
    const consequent = arm(node.consequent);
    const alternate = node.alternate ? arm(node.alternate) : next.id;
    this.goOn({ k: 'If', test, consequent, alternate, fallthrough: next.id }, next);
  },

  LabeledStatement(node) {
    const label = node.label.name;
    if (/^(For|While|DoWhile)/.test(node.body.type)) {
      this.statement(node.body, label);
      return;
    }
    const next = this.newBlock();
    const block = this.listIn(this.newBlock(), next, () => {
      this.breakable({ label, isLabel: true, break: next }, () => this.statement(node.body));
    });
    this.goOn({ k: 'Label', block, fallthrough: next.id }, next);
  },

  SwitchStatement(node) {
    const next = this.newBlock();
    const test = this.expression(node.discriminant);
    const tests = node.cases.map(it => (it.test ? this.expression(it.test) : null));
    const blocks = [...node.cases.map(() => this.newBlock()), next];
    const cases = node.cases.map((it, index) => {
      const block = this.listIn(blocks[index], blocks[index + 1], () => {
        this.breakable({ break: next }, () => this.statements(it.consequent));
      });
      return { test: tests[index], block };
    });
    if (!cases.some(it => it.test === null)) cases.push({ test: null, block: next.id });
    this.goOn({ k: 'Switch', test, cases, fallthrough: next.id }, next);
  },

  TryStatement(node) {
    if (node.finalizer) this.unsupported('finally');
    const [next, block, handler] = [this.newBlock(), this.newBlock(), this.newBlock()];
    const { param, body } = node.handler;
    const binding = param ? this.env.promote(this.env.newPlace()) : null;
    if (binding) this.give({ k: 'DeclareLocal', lvalue: { kind: 'Catch', place: binding.as('Store') } });
    const outer = this.handler;
    this.handler = handler;
    this.listIn(block, next, () => this.statements(node.block.body), 'Try');
    this.handler = outer;
    this.listIn(handler, next, () => {
      if (binding) this.assign('Catch', param, binding);
      this.statements(body.body);
    });
    const terminal = { k: 'Try', block: block.id, handler_binding: binding, handler: handler.id, fallthrough: next.id };
    this.goOn(terminal, next);
  },
};
