'use strict';
// Rows that read, declare and write names.
const { isHook, Place, Type, Unsupported } = require('./environment.js');
const { idsOf } = require('./names.js');

// Functions of the platform whose result is no alias of an argument.
const NO_ALIAS = new Set([
  'String', 'Number', 'Boolean', 'parseInt', 'parseFloat', 'isNaN', 'isFinite', 'Symbol', 'BigInt',
]);

function globalType(name) {
  if (isHook(name)) return Type.HOOK;
  return NO_ALIAS.has(name) ? Type.NO_ALIAS : Type.OTHER;
}

// The names that a statement binds.
function boundBy(statement) {
  if (statement.type === 'FunctionDeclaration') return [statement.id];
  return statement.type === 'VariableDeclaration' ? statement.declarations.flatMap(it => idsOf(it.id)) : [];
}

// Where a name is used in a list before the statement that binds it ends. Only nested functions may use it so early,
// unless it is bound to a function.
function earlyUses({ uses, owner, kind }, from, to) {
  const isEarly = it => it.start >= from && it.start < to && (it.usedIn !== owner || kind === 'function');
  return uses.filter(isEarly).map(it => it.start);
}

module.exports = {
  loadName(id) {
    if (!this.env.isLocal(id.binding)) return this.loadGlobal(id);
    const { identifier } = this.env.variable(id.binding);
    const kind = id.binding.isShared ? 'LoadContext' : 'LoadLocal';
    return this.give({ k: kind, place: new Place(identifier) }, this.env.identifiers[identifier].type_);
  },

  loadGlobal(id) {
    if (id.name === 'undefined') return this.undefined();
    const module = id.binding && id.binding.module;
    const binding = module ? { k: 'Module', ...module } : { k: 'Global', name: id.name };
    return this.give({ k: 'LoadGlobal', binding }, globalType(module ? module.name : id.name));
  },

  // How a row may bind a name: a var or a function that is bound already is written again.
  kindOf(id, kind) {
    const { binding } = id;
    const isOnce = ['let', 'const', 'catch'].includes(binding.kind) || kind === 'Function';
    if (kind !== 'Reassign' && this.env.variable(binding).isDeclared && !isOnce) return 'Reassign';
    return kind === 'Const' && binding.isReassigned ? 'Let' : kind;
  },

  // Stores a value under a name, and returns the row's target.
  storeName(id, kind, value) {
    const { binding } = id;
    if (!this.env.isLocal(binding)) return this.give({ k: 'StoreGlobal', name: id.name, value });
    const lvalue = { kind: this.kindOf(id, kind), place: this.target(binding) };
    if (binding.isShared) {
      lvalue.place = lvalue.place.as('ConditionallyMutate');
      return this.give({ k: 'StoreContext', lvalue, value });
    }
    const identifier = this.env.identifiers[lvalue.place.identifier];
    if (!binding.isReassigned) identifier.type_ = this.env.typeOf(value);
    return this.give({ k: 'StoreLocal', lvalue, value }, this.env.typeOf(value));
  },

  // The place of a name that is written, which is declared from then on.
  target(binding) {
    const variable = this.env.variable(binding);
    variable.isDeclared = true;
    return new Place(variable.identifier, 'Store');
  },

  // Declares a name without a value.
  declareName(id, kind = 'Let') {
    const { binding } = id;
    const variable = this.env.variable(binding);
    if (variable.isDeclared && binding.kind === 'var') return;
    const lvalue = { kind, place: this.target(binding) };
    this.give({ k: binding.isShared ? 'DeclareContext' : 'DeclareLocal', lvalue });
  },

  // Declares at the start of a function each var that is bound below a statement, or used before it is bound.
  declareVars(node) {
    const first = node.body.body.filter(it => it.type === 'VariableDeclaration');
    const onTop = new Set(first.flatMap(it => it.declarations).flatMap(it => idsOf(it.id)));
    for (const binding of node.scope.names.values()) {
      const [id] = binding.declared;
      const isEarly = binding.uses.some(it => it.usedIn === node && it.start < id.start);
      if (binding.kind === 'var' && (!onTop.has(id) || isEarly)) this.declareName({ ...id, binding });
    }
  },

  // The names of a list that are used before the statement that binds them, each with the index of the first such use.
  hoistedOf(list) {
    const isFirst = ({ binding, start }) => binding && binding.declared[0].start === start && this.env.isLocal(binding);
    return list.flatMap((statement, index) => boundBy(statement).filter(isFirst).flatMap(id => {
      const early = earlyUses(id.binding, list[0].start, statement.end);
      if (!early.length) return [];
      id.binding.isHoisted = true;
      return [{ id, index: Math.min(index, list.findIndex(it => it.end > Math.min(...early))) }];
    }));
  },

  declareHoisted(id) {
    if (this.env.variable(id.binding).isDeclared) return;
    const kind = { function: 'HoistedFunction', const: 'HoistedConst' }[id.binding.kind] || 'HoistedLet';
    this.give({ k: 'DeclareContext', lvalue: { kind, place: this.target(id.binding) } });
  },

  unsupported(what) {
    throw new Unsupported(what);
  },
};
