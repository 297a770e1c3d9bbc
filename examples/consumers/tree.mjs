// Prints the text of `rc tree` from an answer: node tree.mjs < ANSWER
import { readFileSync } from "node:fs";

const { fates, func } = JSON.parse(readFileSync(0, "utf8"));
const { blocks, values } = func;

/** Joins texts, and functions that return further ones. No call is in another one, however deep the function nests. */
function joined(parts) {
  const done = [], todo = parts.reverse();
  while (todo.length > 0) {
    const part = todo.pop();
    if (typeof part === "string") done.push(part);
    else for (const inner of part().reverse()) todo.push(inner);
  }
  return done.join("");
}

const json = (value = null) => JSON.stringify(value);
const spanOf = (span) => (span ? ` @${span[0]}..${span[1]}` : "");
const line = (depth, ...parts) => ["  ".repeat(depth), ...parts, "\n"];

const OPERATORS = { And: "&&", Or: "||", Coalesce: "??" };
const NESTED = {
  LogicalExpression: (it) => [`logical(${OPERATORS[it.operator]}, `, value(it.left), ", ", value(it.right), ")"],
  ConditionalExpression: (it) =>
    ["cond(", value(it.test), ", ", value(it.consequent), ", ", value(it.alternate), ")"],
  SequenceExpression: (it) =>
    [`seq(${it.id}, [`, ...it.instructions.flatMap(rowInSequence), "], ", value(it.value), ")"],
  OptionalExpression: (it) => [`opt(${it.optional}, `, value(it.value), ")"],
};

/** A value, whose nested parts are looked up once it is written. */
function value(it) {
  if (it.k !== "Nested") return json(it);
  return () => NESTED[values[it.v].k](values[it.v]);
}

function row({ id, lvalue, value: it, span }) {
  return [`${id} ${lvalue === undefined ? "_" : json(lvalue)} = `, value(it), spanOf(span)];
}

function rowInSequence(it, index) {
  return index > 0 ? ["; ", ...row(it)] : row(it);
}

/** The lines of a block; an optional block may not be there. */
function block(depth, index) {
  return () => blocks[index].flatMap((it) => STATEMENTS[it.k](depth, it.v));
}

const named = (depth, name, index) => [...line(depth, name), block(depth + 1, index)];
const valued = (depth, name, it) => (it ? line(depth, `${name} `, value(it)) : []);

function caseOf(depth, { test, block: index }) {
  const name = test === undefined ? "default" : `case ${json(test)}`;
  return index === undefined ? line(depth, `${name} none`) : named(depth, name, index);
}

const jump = (word, it) => `${word} bb${it.target} ${it.target_kind.toLowerCase()}`;
const caught = (it) => (it.handler_binding === undefined ? "catch" : `catch ${json(it.handler_binding)}`);

// The first words of a terminal's line, and the lines below it.
const HEADS = {
  Break: (it) => jump("break", it), Continue: (it) => jump("continue", it),
  Return: (it) => `return ${json(it.value)}`, Throw: (it) => `throw ${json(it.value)}`,
  If: (it) => `if ${json(it.test)}`, Switch: (it) => `switch ${json(it.test)}`,
  DoWhile: () => "do", While: () => "while", For: () => "for", ForOf: () => "forof", ForIn: () => "forin",
  Label: () => "label", Try: () => "try",
};
const BELOW = {
  If: (depth, it) =>
    [...named(depth, "then", it.consequent), ...(it.alternate ? named(depth, "else", it.alternate) : [])],
  Switch: (depth, it) => it.cases.flatMap((part) => caseOf(depth, part)),
  DoWhile: (depth, it) => [...named(depth, "body", it.loop_block), ...valued(depth, "test", it.test)],
  Label: (depth, it) => named(depth, "body", it.block),
  Try: (depth, it) => [...named(depth, "block", it.block), ...named(depth, caught(it), it.handler)],
};

function loop(depth, it) {
  const parts = ["init", "test", "update"].flatMap((key) => valued(depth, key, it[key]));
  return [...parts, ...named(depth, "body", it.loop_block)];
}

const below = (depth, it) => (BELOW[it.k] ?? ("loop_block" in it ? loop : () => []))(depth, it);
const labelOf = (label) => (label ? ` as bb${label.id}${label.implicit ? " implicit" : ""}` : "");

const STATEMENTS = {
  Instruction: (depth, it) => line(depth, ...row(it)),
  Terminal: (depth, { terminal: it, label }) =>
    [...line(depth, `${HEADS[it.k](it)} id ${it.id}${labelOf(label)}${spanOf(it.span)}`), ...below(depth + 1, it)],
  Scope: (depth, it) => named(depth, `scope ${it.scope}`, it.instructions),
  PrunedScope: (depth, it) => named(depth, `pruned ${it.scope}`, it.instructions),
};

function param({ k, v }) {
  return line(0, k === "Spread" ? `param ...${json(v.place)}` : `param ${json(v)}`);
}

const WORDS = { Kept: "kept", NotEscaping: "not-escaping", Unused: "unused", AlwaysInvalidating: "always-invalidating",
  MergedInto: "merged into", DissolvedInto: "dissolved into" };
const fateOf = (fate) => (fate.k ? `${WORDS[fate.k]} ${fate.v}` : WORDS[fate]);

const kind = `generator ${func.generator} async ${func.is_async}`;
process.stdout.write(joined([
  ...line(0, `function ${json(func.id)} hint ${json(func.name_hint)} ${kind}${spanOf(func.span)}`),
  ...func.params.flatMap(param),
  ...func.directives.flatMap((text) => line(0, `directive ${json(text)}`)),
  ...line(0, "body"), block(1, 0), ...line(0, "fates"),
  ...fates.flatMap(({ scope, fate }) => line(1, `scope ${scope} ${fateOf(fate)}`)),
]));
