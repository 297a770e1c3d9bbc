'use strict';
// Lowers calls and JSX elements.
const { isHook, Type } = require('./environment.js');

// Methods that change their receiver.
const MUTATING = new Set([
  'push', 'pop', 'shift', 'unshift', 'splice', 'sort', 'reverse', 'fill', 'set', 'add', 'delete', 'clear', 'append',
  'insert',
]);
const RESULTS = {
  useRef: Type.REF, map: Type.ARRAY, filter: Type.ARRAY, slice: Type.ARRAY, split: Type.ARRAY, join: Type.PRIMITIVE,
  indexOf: Type.PRIMITIVE, includes: Type.PRIMITIVE, test: Type.PRIMITIVE, trim: Type.PRIMITIVE,
  toString: Type.PRIMITIVE,
};

function nameOf(callee) {
  if (callee.type === 'Identifier') return callee.name;
  return callee.type === 'MemberExpression' && !callee.computed ? callee.property.name : '';
}

// Whether a call is one of useMemo or useCallback with a list of dependencies.
function isMemo(name, args) {
  return ['useMemo', 'useCallback'].includes(name) && args.length === 2 && args[1].type === 'ArrayExpression'
    && args[1].elements.every(it => it && it.type !== 'SpreadElement');
}

module.exports = {
  args(nodes, effect = 'ConditionallyMutate') {
    return nodes.map(it => (it.type === 'SpreadElement'
      ? { k: 'Spread', v: { place: this.expression(it.argument).as('ConditionallyMutateIterator') } }
      : { k: 'Place', v: this.expression(it).as(effect) }));
  },

  call(node) {
    let { callee } = node;
    while (callee.type === 'ParenthesizedExpression') callee = callee.expression;
    if (callee.type === 'Super') this.unsupported('super');
    const name = nameOf(callee);
    if (isMemo(name, node.arguments)) return this.memo(node, name);
    const known = callee.type === 'MemberExpression' ? this.member(callee) : { value: this.expression(callee) };
    return this.callOf(known, name, node.arguments);
  },

  // A call of a value that is computed already, and of its receiver where it is a method.
  callOf({ object, value }, name, nodes) {
    const args = this.args(nodes, isHook(name) ? 'Freeze' : 'ConditionallyMutate');
    const type = Object.hasOwn(RESULTS, name) ? RESULTS[name] : Type.OTHER;
    if (!object) return this.give({ k: 'CallExpression', callee: value, args }, type);
    const receiver = object.as(MUTATING.has(name) ? 'Store' : 'ConditionallyMutate');
    return this.give({ k: 'MethodCall', receiver, property: value, args }, type);
  },

  // useMemo or useCallback, between the marks of what the source keeps.
  memo(node, name) {
    const [made, list] = node.arguments;
    const id = this.env.nextMemo++;
    const deps = list.elements.map(it => this.expression(it));
    this.give({ k: 'StartMemoize', manual_memo_id: id, deps });
    const callback = this.expression(made);
    const decl = name === 'useMemo' ? this.give({ k: 'CallExpression', callee: callback, args: [] }) : callback;
    this.give({ k: 'FinishMemoize', manual_memo_id: id, decl });
    return decl;
  },

  attribute(node) {
    const place = this.expression(node.argument || node.value).as('Freeze');
    if (node.type === 'JSXSpreadAttribute') return { k: 'SpreadAttribute', argument: place };
    return { k: 'Attribute', name: node.name, place };
  },

  // A JSX element, or a fragment where it has no name.
  element(node) {
    const tag = node.tag ? { k: 'Place', v: this.expression(node.tag) } : { k: 'Builtin', v: node.name };
    const props = node.attributes.map(it => this.attribute(it));
    const children = node.children && node.children.map(it => this.expression(it).as('Freeze'));
    if (!node.name) return this.give({ k: 'JsxFragment', children: children || [] }, Type.JSX);
    const value = { k: 'JsxExpression', tag, props };
    if (children) value.children = children;
    return this.give(value, Type.JSX);
  },
};
