'use strict';
// The tables of a document, and the places that name its identifiers.

// What can't be lowered: the message names it.
class Unsupported extends Error {}

// A use of an identifier.
class Place {
  constructor(identifier, effect = 'Read') {
    this.identifier = identifier;
    this.effect = effect;
    this.reactive = false;
  }

  as(effect) {
    return new Place(this.identifier, effect);
  }

  toJSON() {
    if (this.effect === 'Read' && !this.reactive) return this.identifier;
    return [this.identifier, this.effect, this.reactive];
  }
}

// The types of a document, by their index in this list.
const TYPES = [
  'Other', 'Primitive', { k: 'Object', shape: 'Array' }, { k: 'Object', shape: 'Object' },
  { k: 'Function', shape: 'Function' }, { k: 'Object', shape: 'Jsx' }, { k: 'Object', shape: 'UseRef' },
  { k: 'Function', shape: 'SetState' }, { k: 'Function', shape: 'Dispatch' },
  { k: 'Function', shape: { k: 'Row', v: 0 } }, { k: 'Function', shape: { k: 'Row', v: 1 } },
];
const Type = {
  OTHER: 0, PRIMITIVE: 1, ARRAY: 2, OBJECT: 3, FUNCTION: 4, JSX: 5, REF: 6, SET_STATE: 7, DISPATCH: 8, HOOK: 9,
  NO_ALIAS: 10,
};
const SHAPES = [{ hook: true }, { no_alias: true }];
const STABLE = new Set([Type.REF, Type.SET_STATE, Type.DISPATCH]);

const isHook = name => /^use[A-Z0-9]/.test(name);

class Environment {
  constructor(root) {
    this.root = root;
    this.identifiers = [];
    this.scopes = [];
    this.functions = [];
    this.nextBlock = 0;
    this.nextMemo = 0;
    this.variables = new Map();
  }

  // The number of a new identifier.
  newIdentifier(name = null, type = Type.OTHER) {
    const index = this.identifiers.length;
    this.identifiers.push({ declaration_id: index, type_: type, name, scope: null });
    return index;
  }

  newPlace(type = Type.OTHER) {
    return new Place(this.newIdentifier(null, type));
  }

  // Gives a temporary a name, so that it outlives its row.
  promote(place) {
    this.identifiers[place.identifier].name = { k: 'Promoted', v: `#t${place.identifier}` };
    return place;
  }

  typeOf(place) {
    return this.identifiers[place.identifier].type_;
  }

  // Whether a name is declared in the function that is lowered, or in one in it.
  isLocal(binding) {
    for (let it = binding && binding.owner; it; it = it.parentFunction) if (it === this.root) return true;
    return false;
  }

  // What is known of a local name: its identifier, and whether a row has declared it already.
  variable(binding) {
    if (!this.variables.has(binding)) {
      const type = binding.kind === 'function' ? Type.FUNCTION : Type.OTHER;
      const identifier = this.newIdentifier({ k: 'Named', v: binding.name }, type);
      this.variables.set(binding, { identifier, isDeclared: false });
    }
    return this.variables.get(binding);
  }

  json() {
    return {
      identifiers: this.identifiers.map(it => withoutNulls(it)),
      types: TYPES,
      scopes: this.scopes,
      functions: this.functions.map(it => it.json()),
      shapes: SHAPES,
      config: {},
      next_block: this.nextBlock,
    };
  }
}

function withoutNulls(object) {
  return Object.fromEntries(Object.entries(object).filter(([, value]) => value !== null && value !== undefined));
}

module.exports = { Environment, isHook, Place, STABLE, Type, Unsupported, withoutNulls };
