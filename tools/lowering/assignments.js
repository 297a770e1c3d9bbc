'use strict';
// Lowers what writes names, properties and patterns.
const { Type } = require('./environment.js');
const { idsOf } = require('./names.js');

module.exports = {
  // Writes a value to a target, and returns the place that the row gives.
  assign(kind, target, value) {
    switch (target.type) {
      case 'Identifier': return this.storeName(target, kind, value);
      case 'MemberExpression': return this.storeMember(target, null, value);
      case 'AssignmentPattern': return this.assign(kind, target.left, this.orDefault(value, target.right));
      case 'ArrayPattern': case 'ObjectPattern': return this.destructure(kind, target, value);
      default: return this.unsupported(`a target that is ${target.type}`);
    }
  },

  // The value, or that of an expression where it is undefined.
  orDefault(value, node) {
    const isUndefined = () => {
      const right = this.undefined();
      return this.binary('===', value, right);
    };
    return this.ternary(isUndefined, () => this.expression(node), () => value);
  },

  // Whether a pattern can bind a name itself, without a row after it.
  isDirect(node) {
    return node.type === 'Identifier' && this.env.isLocal(node.binding) && !node.binding.isShared;
  },

  destructure(kind, target, value) {
    const own = this.kindOfPattern(kind, target);
    const later = [];
    const slot = node => {
      if (this.isDirect(node)) return this.target(node.binding);
      const place = this.env.promote(this.env.newPlace());
      later.push([node, place]);
      return place.as('Store');
    };
    const pattern = target.type === 'ArrayPattern' ? arrayPattern(target, slot) : this.objectPattern(target, slot);
    const given = this.give({ k: 'Destructure', lvalue: { kind: own, pattern }, value });
    later.forEach(([node, place]) => this.assign(kind, node, place));
    return given;
  },

  // How a pattern binds its names: as a const only where none of them is written again.
  kindOfPattern(kind, target) {
    const kinds = idsOf(target).filter(it => this.env.isLocal(it.binding)).map(it => this.kindOf(it, kind));
    if (kinds.length && kinds.every(it => it === 'Reassign')) return 'Reassign';
    return kinds.includes('Let') || kinds.includes('Reassign') ? 'Let' : kind;
  },

  objectPattern(target, slot) {
    const keys = target.properties.map(it => (it.type === 'RestElement' ? null : this.key(it)));
    const properties = target.properties.map((it, index) => {
      if (it.type === 'RestElement') return { k: 'Spread', v: { place: slot(it.argument) } };
      return { k: 'Property', v: { key: keys[index], place: slot(it.value) } };
    });
    return { k: 'Object', properties };
  },

  assignment(node) {
    const { operator, left } = node;
    if (operator === '=') return this.assign('Reassign', left, this.expression(node.right));
    if (['&&=', '||=', '??='].includes(operator)) return this.logicalAssignment(node);
    const known = this.read(left);
    const right = this.expression(node.right);
    const value = this.binary(operator.slice(0, -1), known.value, right);
    this.writeBack(left, known, value);
    return value;
  },

  logicalAssignment(node) {
    let known;
    const left = () => {
      known = this.read(node.left);
      return known.value;
    };
    const right = () => {
      const value = this.expression(node.right);
      this.writeBack(node.left, known, value);
      return value;
    };
    return this.logical(node.operator.slice(0, 2), left, right);
  },

  // Reads a name or a property that is written after that.
  read(node) {
    if (node.type === 'Identifier') return { value: this.loadName(node) };
    if (node.type !== 'MemberExpression') this.unsupported(`a target that is ${node.type}`);
    return this.member(node);
  },

  writeBack(node, known, value) {
    if (node.type === 'Identifier') this.storeName(node, 'Reassign', value);
    else this.storeMember(node, known.object, value);
  },

  // ++ and --.
  update({ argument, operator, prefix }) {
    if (this.isDirect(argument)) {
      const lvalue = this.target(argument.binding);
      const kind = prefix ? 'PrefixUpdate' : 'PostfixUpdate';
      return this.give({ k: kind, lvalue, operation: operator, value: lvalue.as('Read') }, Type.PRIMITIVE);
    }
    const known = this.read(argument);
    const right = this.give({ k: 'Primitive', value: { k: 'Number', v: '1' } }, Type.PRIMITIVE);
    const value = this.binary(operator[0], known.value, right);
    this.writeBack(argument, known, value);
    return prefix ? value : known.value;
  },
};

function arrayPattern(target, slot) {
  const items = target.elements.map(it => {
    if (!it) return 'Hole';
    return it.type === 'RestElement' ? { k: 'Spread', v: { place: slot(it.argument) } } : { k: 'Place', v: slot(it) };
  });
  return { k: 'Array', items };
}
