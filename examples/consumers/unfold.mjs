// Puts the blocks and nested values of an answer into their places, and prints the body: node unfold.mjs < ANSWER
// Then it takes them out again: the tables must be those that were read, and the text the only one of its answer.
import { readFileSync } from "node:fs";

// The keys at which blocks and values are, in the order of the text.
const BLOCKS = ["alternate", "block", "consequent", "handler", "instructions", "loop_block"];
const VALUES = ["alternate", "consequent", "init", "left", "right", "test", "update", "value"];
const NESTED = ["ConditionalExpression", "LogicalExpression", "OptionalExpression", "SequenceExpression"];

// The objects that may have blocks in a statement, and those that may have values in it, or in a nested value.
const blockHolders = ({ k, v }) => (k === "Terminal" ? v.terminal.cases ?? [v.terminal] : [v]);
const valueHolder = ({ k, v }) => (k === "Terminal" ? v.terminal : v);
const valueHolders = (value) => [...(value.instructions ?? []), value];

// The places at these keys of the objects.
const placesAt = (keys, holders) =>
  holders.flatMap((holder) => keys.filter((key) => key in holder).map((key) => ({ holder, key })));

const blockPlaces = (block) => placesAt(BLOCKS, block.flatMap(blockHolders));
const valuePlaces = (holders, kinds) =>
  placesAt(VALUES, holders).filter(({ holder, key }) => kinds.includes(holder[key].k));

/** Puts the entries of a table, from the first one on, in the place of their numbers. */
function put(table, first, places, numberOf) {
  let due = first;
  for (const { holder, key } of places) {
    const number = numberOf(holder[key]);
    if (number !== due || due === table.length) throw new Error(`${number} is where ${due} is due`);
    holder[key] = table[due++];
  }
  if (due !== table.length) throw new Error(`${due} isn't named`);
}

/** The body of a function, with blocks and values in their places. */
function unfold({ blocks, values }) {
  const holders = [...blocks.flat().map(valueHolder), ...values.flatMap(valueHolders)];
  const places = valuePlaces(holders, ["Nested"]);
  put(blocks, 1, blockPlaces(blocks.flat()), (number) => number);
  put(values, 0, places, ({ v }) => v);
  return blocks[0];
}

/** The tables of a body, which has numbers in the places of its blocks and values from then on. */
function fold(body) {
  const blocks = [body], values = [];
  for (const block of blocks) {
    for (const { holder, key } of blockPlaces(block)) holder[key] = blocks.push(holder[key]) - 1;
  }
  const takeOut = ({ holder, key }) => (holder[key] = { k: "Nested", v: values.push(holder[key]) - 1 });
  valuePlaces(blocks.flat().map(valueHolder), NESTED).forEach(takeOut);
  for (const value of values) valuePlaces(valueHolders(value), NESTED).forEach(takeOut);
  return { blocks, values };
}

/** An object with its keys in byte order. */
function inOrder(key, value) {
  if (typeof value !== "object" || value === null || Array.isArray(value)) return value;
  return Object.fromEntries(Object.entries(value).sort(([one], [other]) => (one < other ? -1 : 1)));
}

const text = readFileSync(0, "utf8");
const { func, ...others } = JSON.parse(text);
const body = unfold(func);
console.log(JSON.stringify(body));

const again = { ...others, func: { ...func, ...fold(body) } };
if (`${JSON.stringify(again, inOrder)}\n` !== text) throw new Error("the answer has another text");
