'use strict';
// Lowers expressions. Each method returns the place of the value.
const { Type } = require('./environment.js');

const primitive = (k, v) => ({ k: 'Primitive', value: { k, v } });

// A text without halves of surrogate pairs, which JSON can't hold.
const wellFormed = text => (text === null || text === undefined ? '' : text.toWellFormed ? text.toWellFormed() : text);

function literal(node) {
  if (node.regex) return { k: 'RegExpLiteral', pattern: node.regex.pattern, flags: node.regex.flags };
  if (node.value === null && !node.bigint) return { k: 'Primitive', value: 'Null' };
  if (typeof node.value === 'boolean') return primitive('Boolean', node.value);
  if (typeof node.value === 'string') return primitive('String', wellFormed(node.value));
  return primitive('Number', node.raw);
}

// The lowering of each type of node that isn't long.
const SHORT = {
  Identifier(node) { return this.loadName(node); },
  ParenthesizedExpression(node) { return this.expression(node.expression); },
  Literal(node) { return this.give(literal(node), node.regex ? Type.OTHER : Type.PRIMITIVE); },
  ThisExpression() { return this.give({ k: 'LoadGlobal', binding: { k: 'Global', name: 'this' } }); },
  FunctionExpression(node) { return this.nestedFunction(node, 'FunctionExpression'); },
  ArrowFunctionExpression(node) { return this.nestedFunction(node, 'FunctionExpression'); },
  AwaitExpression(node) { return this.give({ k: 'Await', value: this.expression(node.argument) }); },
  ChainExpression(node) { return this.chain(node.expression); },
  MemberExpression(node) { return this.member(node).value; },
  CallExpression(node) { return this.call(node); },
  JSXElement(node) { return this.element(node); },
  JSXText(node) { return this.give({ k: 'JSXText', value: wellFormed(node.value) }, Type.PRIMITIVE); },
  UpdateExpression(node) { return this.update(node); },
  AssignmentExpression(node) { return this.assignment(node); },
  MetaProperty(node) { return this.give({ k: 'MetaProperty', meta: node.meta.name, property: node.property.name }); },
  ConditionalExpression(node) {
    const parts = [node.test, node.consequent, node.alternate];
    return this.ternary(...parts.map(it => () => this.expression(it)));
  },
  LogicalExpression(node) {
    return this.logical(node.operator, () => this.expression(node.left), () => this.expression(node.right));
  },
  BinaryExpression(node) {
    if (node.left.type === 'PrivateIdentifier') this.unsupported('a private name');
    const left = this.expression(node.left);
    return this.binary(node.operator, left, this.expression(node.right));
  },
  NewExpression(node) {
    const callee = this.expression(node.callee);
    return this.give({ k: 'NewExpression', callee, args: this.args(node.arguments) });
  },
  TemplateLiteral(node) {
    const subexprs = node.expressions.map(it => this.expression(it));
    const quasis = node.quasis.map(it => wellFormed(it.value.raw));
    return this.give({ k: 'TemplateLiteral', subexprs, quasis }, Type.PRIMITIVE);
  },
  TaggedTemplateExpression(node) {
    if (node.quasi.expressions.length) this.unsupported('a tagged template with expressions');
    const tag = this.expression(node.tag);
    return this.give({ k: 'TaggedTemplateExpression', tag, quasi: wellFormed(node.quasi.quasis[0].value.raw) });
  },
};

module.exports = {
  expression(node) {
    const lower = SHORT[node.type] || this[node.type];
    return lower ? lower.call(this, node) : this.unsupported(`${node.type}`);
  },

  binary(operator, left, right) {
    return this.give({ k: 'BinaryExpression', operator, left, right }, Type.PRIMITIVE);
  },

  ArrayExpression(node) {
    const elements = node.elements.map(it => {
      if (!it) return 'Hole';
      if (it.type !== 'SpreadElement') return { k: 'Place', v: this.expression(it).as('Capture') };
      return { k: 'Spread', v: { place: this.expression(it.argument).as('ConditionallyMutateIterator') } };
    });
    return this.give({ k: 'ArrayExpression', elements }, Type.ARRAY);
  },

  ObjectExpression(node) {
    const properties = node.properties.map(it => {
      if (it.type === 'SpreadElement') return { k: 'Spread', v: { place: this.expression(it.argument).as('Capture') } };
      if (it.kind !== 'init') this.unsupported('a getter or a setter');
      const key = this.key(it);
      const place = it.method ? this.nestedFunction(it.value, 'ObjectMethod') : this.expression(it.value);
      return { k: 'Property', v: { key, place: place.as('Capture') } };
    });
    return this.give({ k: 'ObjectExpression', properties }, Type.OBJECT);
  },

  // The key of a property of a literal or of a pattern.
  key({ key, computed }) {
    if (computed) return { k: 'Computed', v: this.expression(key) };
    if (key.type === 'Identifier') return { k: 'Identifier', v: key.name };
    if (key.type !== 'Literal') this.unsupported('a private name');
    return typeof key.value === 'string' ? { k: 'String', v: wellFormed(key.value) } : { k: 'Number', v: key.raw };
  },

  SequenceExpression(node) {
    const next = this.newBlock();
    const place = this.env.newPlace();
    const block = this.within(this.newBlock(), () => {
      const values = node.expressions.map(it => this.expression(it));
      this.answer(place, values.at(-1));
      return this.jump(next);
    });
    return this.valueOf({ k: 'Sequence', block, fallthrough: next.id }, next, place);
  },

  UnaryExpression(node) {
    if (node.operator === 'delete') return this.remove(node.argument);
    const value = this.expression(node.argument);
    return this.give({ k: 'UnaryExpression', operator: node.operator, value }, Type.PRIMITIVE);
  },

  // Goes on after a terminal that is a value, which gives that place.
  valueOf(terminal, next, place) {
    this.goOn({ ...terminal, gives: place.identifier }, next);
    this.last = place.identifier;
    return place;
  },

  // An arm of a value: its block stores the answer.
  arm(place, next, value) {
    return this.within(this.newBlock(), () => {
      this.answer(place, value());
      return this.jump(next);
    });
  },

  ternary(test, whenTrue, whenFalse) {
    const [first, next] = [this.newBlock(), this.newBlock()];
    const place = this.env.newPlace();
    this.within(first, () => {
      const tested = test();
      const branch = this.branch(tested, null, null);
      // The arms are lowered after the test, as they run.
      branch.consequent = this.arm(place, next, whenTrue);
      branch.alternate = this.arm(place, next, whenFalse);
      return branch;
    });
    return this.valueOf({ k: 'Ternary', test: first.id, fallthrough: next.id }, next, place);
  },

  logical(operator, left, right) {
    const [first, next] = [this.newBlock(), this.newBlock()];
    const place = this.env.newPlace();
    this.within(first, () => {
      const value = this.give({ k: 'LoadLocal', place: left() });
      const branch = this.branch(value, null, null);
      branch.consequent = this.arm(place, next, () => value);
      branch.alternate = this.arm(place, next, right);
      return branch;
    });
    const name = { '&&': 'And', '||': 'Or', '??': 'Coalesce' }[operator];
    return this.valueOf({ k: 'Logical', operator: name, test: first.id, fallthrough: next.id }, next, place);
  },
};
