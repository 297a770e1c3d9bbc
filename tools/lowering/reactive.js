'use strict';
// Which names may change between renders, and the marks of their places.
const { STABLE, Type } = require('./environment.js');
const { operandsOf, operandsOfTerminal, placesIn, targetsOf } = require('./operands.js');

const MUTABLE = new Set(['ConditionallyMutateIterator', 'ConditionallyMutate', 'Mutate', 'Store']);

function isHookCall(env, { k, callee, property }) {
  const called = { CallExpression: callee, MethodCall: property }[k];
  return called !== undefined && env.typeOf(called) === Type.HOOK;
}

// Adds what a row with a reactive operand, or a hook's result, makes reactive.
function spread(env, row, found) {
  const operands = operandsOf(env, row.value);
  if (!operands.some(it => found.has(it.identifier)) && !isHookCall(env, row.value)) return;
  if (!STABLE.has(env.typeOf(row.lvalue))) found.add(row.lvalue.identifier);
  const written = [...targetsOf(row.value), ...operands.filter(it => MUTABLE.has(it.effect))];
  written.filter(it => !STABLE.has(env.typeOf(it))).forEach(it => found.add(it.identifier));
}

function reactiveNames(graph) {
  const found = new Set(placesIn(graph.params).map(it => it.identifier));
  for (let before = -1; before !== found.size;) {
    before = found.size;
    for (const block of graph.ordered) block.rows.forEach(row => spread(graph.env, row, found));
  }
  return found;
}

// Marks each place of a reactive name, and returns these names.
function markReactive(graph) {
  const found = reactiveNames(graph);
  const mark = places => places.forEach(it => { it.reactive = found.has(it.identifier); });
  mark(placesIn(graph.params));
  for (const block of graph.ordered) {
    for (const row of block.rows) mark([row.lvalue, ...placesIn(row.value), ...operandsOf(graph.env, row.value)]);
    mark(operandsOfTerminal(block.terminal));
  }
  return found;
}

module.exports = { isHookCall, markReactive };
