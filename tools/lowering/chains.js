'use strict';
// Lowers optional chains. All steps of a chain share the arm that gives undefined.

// A node without the brackets around it.
function inner(node) {
  return ['ChainExpression', 'ParenthesizedExpression'].includes(node.type) ? inner(node.expression) : node;
}

// Whether there is a ?. in a chain, at its end or before.
function isOptional(node) {
  const it = inner(node);
  if (it.type === 'MemberExpression') return it.optional || isOptional(it.object);
  return it.type === 'CallExpression' && (it.optional || isOptional(it.callee));
}

module.exports = {
  chain(node) {
    return isOptional(node) ? this.step(node, null).value : this.expression(node);
  },

  // A step of a chain, whose short arm may be that of the step around it. Returns the object of a property too.
  step(whole, shared) {
    const node = inner(whole);
    const [test, consequent, next] = [this.newBlock(), this.newBlock(), this.newBlock()];
    const place = this.env.newPlace();
    const short = shared === null ? this.arm(place, next, () => this.undefined()) : shared;
    const isMember = node.type === 'MemberExpression';
    let known;
    this.within(test, () => {
      known = isMember ? { value: this.part(node.object, short) } : this.callee(node.callee, short);
      return this.branch(known.value, consequent.id, short);
    });
    this.within(consequent, () => {
      this.answer(place, this.rest(node, known));
      return this.jump(next);
    });
    const terminal = { k: 'Optional', optional: Boolean(node.optional), test: test.id, fallthrough: next.id };
    this.valueOf({ ...terminal, isShared: shared !== null }, next, place);
    return { value: place, object: isMember ? known.value : null };
  },

  // The object of a step, which may be a step itself.
  part(node, short) {
    return isOptional(node) ? this.step(node, short).value : this.expression(node);
  },

  callee(node, short) {
    if (isOptional(node)) return this.step(node, short);
    const it = inner(node);
    return it.type === 'MemberExpression' ? this.member(it) : { value: this.expression(it) };
  },

  // What a step does where the value before it isn't null or undefined.
  rest(node, known) {
    if (node.type === 'MemberExpression') return this.member(node, known.value).value;
    return this.callOf(known, '', node.arguments);
  },
};
