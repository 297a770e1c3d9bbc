'use strict';
// Makes documents of the functions of a JavaScript file, which may have JSX in it.
const fs = require('fs');
const path = require('path');
const { parse } = require('./parse.js');
const { functionsOf } = require('./names.js');
const { Unsupported } = require('./environment.js');
const { documentOf } = require('./document.js');

const USAGE = `usage: tools/lower FILE.js                 prints the document of the first function that can be lowered
       tools/lower FILE.js NAME            prints the document of the function of that name
       tools/lower FILE.js --all FOLDER    writes the document of each function as FOLDER/NAME.json
The functions are those that are in no other function; those in them are parts of their documents.`;

function say(...lines) {
  for (const line of lines) console.error(`lower: ${line}`);
}

// The document of each function that can be lowered, and what can't be said of the others.
function lowerAll(file) {
  const program = parse(fs.readFileSync(file, 'utf8'), file.endsWith('.mjs'));
  const functions = functionsOf(program).filter(it => !it.parentFunction);
  const found = new Map();
  functions.forEach((node, index) => {
    const name = (node.id && node.id.name) || node.givenName || `function${index}`;
    try {
      found.set(name, documentOf(node));
    } catch (error) {
      if (!(error instanceof Unsupported)) throw error;
      say(`${name} is left out: ${error.message} can't be lowered`);
    }
  });
  return found;
}

function writeAll(documents, folder) {
  fs.mkdirSync(folder, { recursive: true });
  for (const [name, document] of documents) {
    const file = path.join(folder, `${name}.json`);
    fs.writeFileSync(file, JSON.stringify(document) + '\n');
    console.log(file);
  }
  return 0;
}

function print(documents, name) {
  const chosen = name === undefined ? [...documents.keys()][0] : name;
  if (!documents.has(chosen)) {
    say(name === undefined ? 'the file has no function that can be lowered' : `there is no function ${name}`,
      `functions: ${[...documents.keys()].join(', ')}`);
    return 1;
  }
  const others = [...documents.keys()].filter(it => it !== chosen);
  if (name === undefined && others.length) say(`this is ${chosen}; the file also has ${others.join(', ')}`);
  process.stdout.write(JSON.stringify(documents.get(chosen)) + '\n');
  return 0;
}

function main(words) {
  const [file, name, folder] = words;
  const isAll = name === '--all';
  if (!file || file.startsWith('-') || words.length !== (isAll ? 3 : words.length > 1 ? 2 : 1)) {
    console.error(USAGE);
    return 64;
  }
  say('nothing of this is proved, and reactive scopes are guessed, not inferred as React Compiler does');
  try {
    const documents = lowerAll(file);
    return isAll ? writeAll(documents, folder) : print(documents, name);
  } catch (error) {
    if (error instanceof SyntaxError) say(`${file}: ${error.message}`);
    else if (error.code) say(error.message);
    else throw error;
    return 1;
  }
}

process.exitCode = main(process.argv.slice(2));
