'use strict';
// The places of a row: those that it reads, and those of names that it writes beside its target.
const { Place } = require('./environment.js');

// All places in a value, in the order of its fields, but for these fields.
function placesIn(value, ...without) {
  if (value instanceof Place) return [value];
  if (Array.isArray(value)) return value.flatMap(it => placesIn(it));
  if (!value || typeof value !== 'object') return [];
  return Object.keys(value).filter(key => !without.includes(key)).flatMap(key => placesIn(value[key]));
}

// The places that a row reads: of a nested function the names that it captures.
function operandsOf(env, value) {
  if (value.lowered_func) return env.functions[value.lowered_func.func].context;
  const stored = value.k === 'StoreContext' ? [value.lvalue.place] : [];
  const keys = placesIn(keysOf(value));
  return [...stored, ...keys, ...placesIn(value, 'lvalue')];
}

// The computed keys of a pattern are read too.
function keysOf({ lvalue }) {
  const properties = (lvalue && lvalue.pattern && lvalue.pattern.properties) || [];
  return properties.map(it => it.v.key);
}

// The places of names that a row writes.
function targetsOf({ lvalue }) {
  if (!lvalue) return [];
  if (lvalue instanceof Place) return [lvalue];
  if (!lvalue.pattern) return [lvalue.place];
  const parts = lvalue.pattern.items || lvalue.pattern.properties;
  return parts.filter(it => it !== 'Hole').map(it => (it.k === 'Place' ? it.v : it.v.place));
}

// The places that a terminal reads.
function operandsOfTerminal(terminal) {
  return placesIn(terminal);
}

module.exports = { operandsOf, operandsOfTerminal, placesIn, targetsOf };
