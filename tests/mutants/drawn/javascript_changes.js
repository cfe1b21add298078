// The changes of a file in JavaScript, by acorn's syntax tree: a line of JSON for each, with the places as bytes.
//     node javascript_changes.js FILE WORDS.json     where WORDS.json has `bounds` and `opposites`
"use strict";

const fs = require("fs");
const acorn = require("/usr/share/nodejs/acorn");

const [path, words] = process.argv.slice(2);
const text = fs.readFileSync(path, "utf8");
const { bounds, opposites } = JSON.parse(fs.readFileSync(words, "utf8"));

/** The place in bytes of a place in the text. */
function byte(at) {
  return Buffer.byteLength(text.slice(0, at), "utf8");
}

function add(kind, start, end, fresh) {
  const old = text.slice(start, end);
  if (fresh !== old) {
    const line = text.slice(0, start).split("\n").length;
    console.log(JSON.stringify({ kind, line, start: byte(start), end: byte(end), new: fresh }));
  }
}

function source(node) {
  return text.slice(node.start, node.end);
}

function condition(test) {
  add("NEGATED", test.start, test.end, `!(${source(test)})`);
}

function exchange(first, second) {
  const between = text.slice(first.end, second.start);
  add("ARGUMENTS", first.start, second.end, source(second) + between + source(first));
}

function leaveOut(entries) {
  if (entries.length < 2) return;
  entries.forEach((entry, at) => {
    if (at + 1 < entries.length) add("ENTRY", entry.start, entries[at + 1].start, "");
    else add("ENTRY", entries[at - 1].end, entry.end, "");
  });
}

/** A function that gives nothing back ends before one of its statements. */
function early(body) {
  if (body.type !== "BlockStatement" || /\breturn [^;]/.test(source(body))) return;
  for (const statement of body.body.slice(1)) {
    if (!/^(Function|Class)Declaration$/.test(statement.type))
      add("EARLY", statement.start, statement.start, "return; ");
  }
}

const simple = new Set(["Identifier", "MemberExpression"]);
const looks = {
  IfStatement: (node) => condition(node.test),
  WhileStatement: (node) => condition(node.test),
  ConditionalExpression: (node) => condition(node.test),
  LogicalExpression(node) {
    if (node.operator === "??") return;
    const neutral = node.operator === "&&" ? "true" : "false";
    for (const side of [node.left, node.right]) add("CONDITION_DROPPED", side.start, side.end, neutral);
  },
  BinaryExpression(node) {
    if (!(node.operator in bounds)) return;
    const between = text.slice(node.left.end, node.right.start);
    add("BOUND", node.left.end, node.right.start, between.replace(node.operator, bounds[node.operator]));
  },
  ExpressionStatement(node) {
    const kinds = { CallExpression: "CALL_DROPPED", AssignmentExpression: "STATEMENT_DROPPED", UpdateExpression: "STATEMENT_DROPPED" };
    const kind = kinds[node.expression.type];
    if (kind) add(kind, node.start, node.end, ";");
  },
  ThrowStatement: (node) => add("STATEMENT_DROPPED", node.start, node.end, ";"),
  BreakStatement: (node) => add("STATEMENT_DROPPED", node.start, node.end, ";"),
  ContinueStatement: (node) => add("STATEMENT_DROPPED", node.start, node.end, ";"),
  CallExpression(node) {
    node.arguments.slice(1).forEach((second, at) => {
      const first = node.arguments[at];
      if (simple.has(first.type) && simple.has(second.type)) exchange(first, second);
    });
  },
  Identifier(node) {
    if (Object.hasOwn(opposites, node.name)) add("OPPOSITE", node.start, node.end, opposites[node.name]);
  },
  Literal(node) {
    if (Number.isInteger(node.value)) add("BOUND", node.start, node.end, String(node.value + 1));
  },
  ArrayExpression: (node) => leaveOut(node.elements.filter((entry) => entry !== null)),
  FunctionDeclaration: (node) => early(node.body),
  FunctionExpression: (node) => early(node.body),
  ArrowFunctionExpression: (node) => early(node.body),
};

/** Looks at each node once. */
function walk(node) {
  if (Array.isArray(node)) return node.forEach(walk);
  if (node === null || typeof node !== "object" || typeof node.type !== "string") return;
  if (Object.hasOwn(looks, node.type)) looks[node.type](node);
  if (node.type.startsWith("Import") || node.type.startsWith("Export") && !node.declaration) return;
  for (const [key, inner] of Object.entries(node)) if (key !== "type") walk(inner);
}

walk(acorn.parse(text, { ecmaVersion: 2022, sourceType: "module" }));
