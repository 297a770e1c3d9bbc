// Prints each kept scope of an answer with its dependencies by name: node kept-scopes.mjs < ANSWER
import { readFileSync } from "node:fs";

const { env, fates } = JSON.parse(readFileSync(0, "utf8"));

// A temporary has no name, so its number is shown.
const nameOf = (identifier) => env.identifiers[identifier].name?.v ?? `$${identifier}`;

function stepOf({ property, optional }) {
  if (property.k === "Number") return `${optional ? "?." : ""}[${property.v}]`;
  return `${optional ? "?." : "."}${property.v}`;
}

const pathOf = ({ identifier, path }) => nameOf(identifier) + path.map(stepOf).join("");

for (const { scope } of fates.filter(({ fate }) => fate === "Kept")) {
  const paths = env.scopes[scope].dependencies.map(pathOf);
  console.log(`scope ${scope} depends on ${paths.join(", ") || "nothing"}`);
}
