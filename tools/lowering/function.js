'use strict';
// Lowers a function: its parameters, and its body by the methods of the other files.
const { Place, Type, Unsupported } = require('./environment.js');
const { Graph } = require('./graph.js');

for (const part of ['variables', 'expressions', 'members', 'calls', 'chains', 'assignments', 'statements', 'loops']) {
  Object.assign(Graph.prototype, require(`./${part}.js`));
}

function addParameter(graph, node, patterns) {
  const isRest = node.type === 'RestElement';
  const target = isRest ? node.argument : node;
  let place;
  if (target.type === 'Identifier') {
    const variable = graph.env.variable(target.binding);
    variable.isDeclared = true;
    place = new Place(variable.identifier);
  } else {
    place = graph.env.promote(graph.env.newPlace());
    patterns.push([target, place]);
  }
  graph.params.push(isRest ? { k: 'Spread', v: { place } } : { k: 'Place', v: place });
}

// Gives a function expression's own name a value, where it is used.
function declareOwnName(graph, node) {
  if (!node.ownName || !node.ownName.uses.length) return;
  const value = graph.give({ k: 'LoadGlobal', binding: { k: 'Global', name: node.id.name } }, Type.FUNCTION);
  graph.storeName(node.id, 'Const', value);
}

function lowerBody(graph, node) {
  if (node.body.type !== 'BlockStatement') {
    graph.end({ k: 'Return', value: graph.expression(node.body).as('Freeze') });
    return;
  }
  const statements = node.body.body;
  graph.directives = statements.map(it => it.directive).filter(it => it !== undefined);
  graph.declareVars(node);
  graph.statements(statements.filter(it => it.directive === undefined));
  graph.end({ k: 'Return', value: graph.undefined().as('Freeze') });
}

// Returns the numbered graph of a function that captures these names.
function lowerFunction(env, node, captured) {
  const graph = new Graph(env, node);
  const patterns = [];
  graph.context = captured.map(it => new Place(env.variable(it).identifier, it.isShared ? 'Mutate' : 'Capture'));
  node.params.forEach(it => addParameter(graph, it, patterns));
  declareOwnName(graph, node);
  patterns.forEach(([target, place]) => graph.assign('Let', target, place));
  lowerBody(graph, node);
  graph.number();
  return graph;
}

// A row that makes a nested function.
Graph.prototype.nestedFunction = function (node, kind) {
  const { env } = this;
  const captured = [...node.captures].filter(it => env.isLocal(it) && it.owner !== node);
  const func = env.functions.push(lowerFunction(env, node, captured)) - 1;
  const value = { k: kind, lowered_func: { func } };
  if (kind === 'FunctionExpression') value.name = (node.id && node.id.name) || node.givenName;
  return this.give(value, Type.FUNCTION);
};

module.exports = { lowerFunction, Unsupported };
