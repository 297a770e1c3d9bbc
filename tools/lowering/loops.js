'use strict';
// Lowers loops. A test is lowered into blocks of its own, which end in a branch.
const { Type } = require('./environment.js');

module.exports = {
  // The body of a loop, each turn of which goes on at that block.
  loopBody(node, label, block, next, again) {
    return this.listIn(block, again, () => {
      this.breakable({ label, break: next, continue: again }, () => this.statement(node.body));
    }, 'Continue');
  },

  testIn(block, body, next, test) {
    return this.within(block, () => this.branch(test(), body.id, next.id));
  },

  WhileStatement(node, label) {
    const [test, body, next] = [this.newBlock(), this.newBlock(), this.newBlock()];
    this.testIn(test, body, next, () => this.expression(node.test));
    this.loopBody(node, label, body, next, test);
    this.goOn({ k: 'While', test: test.id, loop_block: body.id, fallthrough: next.id }, next);
  },

  DoWhileStatement(node, label) {
    const [body, test, next] = [this.newBlock(), this.newBlock(), this.newBlock()];
    this.loopBody(node, label, body, next, test);
    this.testIn(test, body, next, () => this.expression(node.test));
    this.goOn({ k: 'DoWhile', loop_block: body.id, test: test.id, fallthrough: next.id }, next);
  },

  // The initializer of a for, or nothing.
  initializer(node) {
    if (!node) this.undefined();
    else if (node.type === 'VariableDeclaration') this.statement(node);
    else this.ensureRow(this.expression(node));
  },

  ForStatement(node, label) {
    const [init, test, body, next] = [this.newBlock(), this.newBlock(), this.newBlock(), this.newBlock()];
    const update = node.update ? this.newBlock() : null;
    this.listIn(init, test, () => this.initializer(node.init));
    const always = () => this.give({ k: 'Primitive', value: { k: 'Boolean', v: true } }, Type.PRIMITIVE);
    this.testIn(test, body, next, () => (node.test ? this.expression(node.test) : always()));
    this.loopBody(node, label, body, next, update || test);
    if (update) this.listIn(update, test, () => this.ensureRow(this.expression(node.update)));
    this.goOn({
      k: 'For', init: init.id, test: test.id, update: update && update.id, loop_block: body.id, fallthrough: next.id,
    }, next);
  },

  // Binds the next item or key, and returns the place that the row gives.
  bindNext(node, value) {
    const { left } = node;
    if (left.type !== 'VariableDeclaration') return this.assign('Reassign', left, value);
    return this.assign(left.kind === 'const' ? 'Const' : 'Let', left.declarations[0].id, value);
  },

  ForOfStatement(node, label) {
    if (node.await) this.unsupported('for await');
    const [init, test, body, next] = [this.newBlock(), this.newBlock(), this.newBlock(), this.newBlock()];
    const collection = this.expression(node.right);
    let iterator;
    this.listIn(init, test, () => {
      iterator = this.give({ k: 'GetIterator', collection: collection.as('ConditionallyMutateIterator') });
    });
    this.testIn(test, body, next, () => {
      const item = this.give({ k: 'IteratorNext', iterator: iterator.as('ConditionallyMutate'), collection });
      return this.bindNext(node, item);
    });
    this.loopBody(node, label, body, next, init);
    this.goOn({ k: 'ForOf', init: init.id, test: test.id, loop_block: body.id, fallthrough: next.id }, next);
  },

  ForInStatement(node, label) {
    const [init, body, next] = [this.newBlock(), this.newBlock(), this.newBlock()];
    const value = this.expression(node.right);
    this.testIn(init, body, next, () => this.bindNext(node, this.give({ k: 'NextPropertyOf', value })));
    this.loopBody(node, label, body, next, init);
    this.goOn({ k: 'ForIn', init: init.id, loop_block: body.id, fallthrough: next.id }, next);
  },
};
