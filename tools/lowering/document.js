'use strict';
// The document of a function.
const { Environment } = require('./environment.js');
const { lowerFunction } = require('./function.js');
const { markReactive } = require('./reactive.js');
const { addScopes } = require('./scopes.js');
const { describeScopes } = require('./dependencies.js');

function documentOf(node) {
  const env = new Environment(node);
  const graph = lowerFunction(env, node, []);
  addScopes(graph);
  graph.number();
  const reactive = markReactive(graph);
  describeScopes(graph, reactive);
  return { hir: graph.json(), env: env.json() };
}

module.exports = { documentOf };
