'use strict';
// Rows that read, write and delete properties.
const { isHook, Type } = require('./environment.js');

// Objects of the platform whose methods give no alias of an argument.
const NO_ALIAS = new Set(['Math', 'JSON', 'console', 'Number', 'Date', 'Reflect']);

const isConstant = node => node.type === 'Literal' && ['string', 'number'].includes(typeof node.value);

module.exports = {
  // The name of a property that isn't computed, or null.
  propertyName({ computed, property }) {
    if (property.type === 'PrivateIdentifier') this.unsupported('a private name');
    if (!computed) return { k: 'String', v: property.name };
    if (!isConstant(property)) return null;
    return typeof property.value === 'number' ? { k: 'Number', v: property.raw } : { k: 'String', v: property.value };
  },

  typeOfProperty({ object, computed, property }) {
    if (computed) return Type.OTHER;
    if (isHook(property.name)) return Type.HOOK;
    if (property.name === 'length') return Type.PRIMITIVE;
    const isGlobal = object.type === 'Identifier' && !this.env.isLocal(object.binding);
    return isGlobal && NO_ALIAS.has(object.name) ? Type.NO_ALIAS : Type.OTHER;
  },

  objectOf(node) {
    if (node.object.type === 'Super') this.unsupported('super');
    return this.expression(node.object);
  },

  // Reads a property, of an object that may be known already. Returns the object too.
  member(node, known = null) {
    const object = known || this.objectOf(node);
    const name = this.propertyName(node);
    const value = name
      ? this.give({ k: 'PropertyLoad', object, property: name }, this.typeOfProperty(node))
      : this.give({ k: 'ComputedLoad', object, property: this.expression(node.property) });
    return { object, value };
  },

  storeMember(node, known, value) {
    const object = (known || this.objectOf(node)).as('Store');
    const name = this.propertyName(node);
    const stored = value.as('Capture');
    const type = this.env.typeOf(value);
    if (name) return this.give({ k: 'PropertyStore', object, property: name, value: stored }, type);
    return this.give({ k: 'ComputedStore', object, property: this.expression(node.property), value: stored }, type);
  },

  // delete of a property.
  remove(node) {
    if (node.type !== 'MemberExpression') this.unsupported('delete of what is no property');
    const object = this.objectOf(node).as('Mutate');
    const name = this.propertyName(node);
    if (name) return this.give({ k: 'PropertyDelete', object, property: name }, Type.PRIMITIVE);
    return this.give({ k: 'ComputedDelete', object, property: this.expression(node.property) }, Type.PRIMITIVE);
  },
};
