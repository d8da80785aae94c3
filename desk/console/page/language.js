// The language of words (docs/CONSOLE.md), read: a line becomes a statement, or a mistake with its column. The forms and what each
// operand is called are given by desk/console; the tests hold this reader to that one.

import { EXPECTED, GROUPS } from "./given.js";

const MOST = 65535, NAME_BYTES = 6, MESSAGE_BYTES = 8;
const encoder = new TextEncoder();

export class Mistake extends Error {
  constructor(column, sentence) { super(sentence); this.column = column; }
  told() { return `Column ${this.column}: ${this.message}`; }
}

function formOf([pattern, says]) {
  const parts = [], ends = [];
  for (const piece of pattern.match(/[[\]]|[A-Za-z]+/g)) {
    if (piece === "[") ends.push(parts.length);
    else if (piece !== "]") parts.push(piece);
  }
  const name = parts[0] === "wait" ? parts.slice(0, 2).join(" ") : parts[0];
  return { name, pattern, says, parts, ends: [...ends, parts.length] };
}

export const FORMS = Object.values(GROUPS).flat().map(formOf);
export const FIRST_WORDS = [...new Set(FORMS.map(form => form.parts[0]))];
const BY_CALLER = [...GROUPS["calls of who runs"].map(form => formOf(form).name), "call"];
const isOperand = part => part === part.toUpperCase();

// How many letters have to be put in, taken out, changed or swapped with their neighbour to make one word of the other.
function distance(one, two) {
  const rows = [Array.from({ length: two.length + 1 }, (_, j) => j)];
  for (let i = 1; i <= one.length; i++) {
    const row = [i];
    for (let j = 1; j <= two.length; j++) {
      row[j] = Math.min(rows[i - 1][j] + 1, row[j - 1] + 1, rows[i - 1][j - 1] + (one[i - 1] !== two[j - 1]));
      if (i > 1 && j > 1 && one[i - 1] === two[j - 2] && one[i - 2] === two[j - 1]) row[j] = Math.min(row[j], rows[i - 2][j - 2] + 1);
    }
    rows.push(row);
  }
  return rows[one.length][two.length];
}

export function nearest(word, choices) {
  if (word.length > 24) return null;
  const steps = choice => distance(word.toLowerCase(), choice.toLowerCase());
  const best = choices.reduce((found, choice) => found === null || steps(choice) < steps(found) ? choice : found, null);
  return best !== null && steps(best) <= Math.max(1, Math.floor(Math.min(word.length, best.length) / 3)) ? best : null;
}

const shown = text => text.length > 24 ? `${text.slice(0, 24)}..` : text;

function expected(found, column, wanted, choices = []) {
  const near = found ? nearest(found, choices) : null;
  const what = found ? `'${shown(found)}'` : "the end of the line";
  return new Mistake(column, `expected ${wanted}, and found ${what}${near ? `; the nearest word is ${near}` : ""}.`);
}

// The bytes of a text that begins behind the quote at a place, and the place behind its end.
function textFrom(line, begin) {
  const bytes = [], piece = /([^"\\]+)|\\(["\\])|\\x([0-9A-Fa-f]{2})|(")/y;
  piece.lastIndex = begin + 1;
  let place = begin + 1;
  for (let found; (found = piece.exec(line)); place = piece.lastIndex) {
    if (found[4]) return [bytes, piece.lastIndex];
    bytes.push(...found[3] ? [parseInt(found[3], 16)] : encoder.encode(found[1] || found[2]));
  }
  if (place < line.length) throw new Mistake(place + 1, "behind \\ in a text stands a quote, another \\, or x and two hexadecimal digits.");
  throw new Mistake(begin + 1, "the text that begins here has no quote at its end.");
}

// The pieces of a line, without blanks and remark.
export function cut(line) {
  const tokens = [], piece = /(\s+)|(#.*)|(:)|(")|([^\s"#:]+)/y;
  for (let place = 0; place < line.length;) {
    piece.lastIndex = place;
    const found = piece.exec(line), column = place + 1;
    place = piece.lastIndex;
    if (found[4]) {
      const [bytes, end] = textFrom(line, column - 1);
      tokens.push({ kind: "text", bytes, said: line.slice(column - 1, end), column, end: end + 1 });
      place = end;
    } else if (found[3] || found[5]) {
      tokens.push({ kind: found[3] ? "colon" : "word", bytes: [...encoder.encode(found[0])], said: found[0], column, end: place + 1 });
    }
  }
  return tokens;
}

const unexpected = (token, operand) => expected(token.said, token.column, EXPECTED[operand]);
const isNumber = token => token.kind === "word" && /^[0-9]+$/.test(token.said);
const isNamed = token => token.kind === "word" || token.kind === "text";

function number(token, operand, least = 0) {
  if (!isNumber(token)) throw unexpected(token, operand);
  const value = Number(token.said);
  if (value < least || value > MOST) throw new Mistake(token.column, `expected ${EXPECTED[operand]}, and a number is from ${least} to ${MOST} here.`);
  return value;
}

function name(token, operand) {
  if (isNumber(token)) {
    throw new Mistake(token.column, `a name that is a number would be taken for one; write it in quotes, as "${token.said.slice(0, NAME_BYTES)}".`);
  }
  if (!isNamed(token)) throw unexpected(token, operand);
  if (token.bytes.length > NAME_BYTES) {
    throw new Mistake(token.column, `expected ${EXPECTED[operand]}, and this one has ${token.bytes.length}; a line of the log has room for six.`);
  }
  return token.bytes;
}

function reference(token) {
  if (isNumber(token)) return { bytes: null, number: number(token, "PROCESS"), column: token.column };
  if (!isNamed(token)) throw unexpected(token, "PROCESS");
  return { bytes: token.bytes, number: null, column: token.column };
}

const filled = (values, count) => [...values, ...new Array(count - values.length).fill(0)];

function hexWords(tokens, operand, most) {
  const words = tokens.slice(0, most).map(token => {
    if (token.kind !== "word" || !/^[0-9A-Fa-f]{4}$/.test(token.said)) throw unexpected(token, operand);
    return parseInt(token.said, 16);
  });
  return [filled(words, most), words.length];
}

function message(tokens, operand) {
  const [token] = tokens;
  if (token.kind !== "text") return hexWords(tokens, operand, 4);
  if (token.bytes.length > MESSAGE_BYTES) throw new Mistake(token.column, `a message has eight bytes, and this text has ${token.bytes.length}.`);
  const bytes = filled(token.bytes, MESSAGE_BYTES);
  return [[0, 2, 4, 6].map(i => bytes[i] * 256 + bytes[i + 1]), 1];
}

function callNumber(token, operand) {
  if (token.kind !== "word" || !/^[0-9A-Fa-f]{2}$/.test(token.said)) throw unexpected(token, operand);
  return parseInt(token.said, 16);
}

function text(token, operand) {
  if (token.kind !== "text") throw unexpected(token, operand);
  if (token.bytes.includes(10)) throw new Mistake(token.column, "a line can't have a line end, \\x0A, inside.");
  return token.bytes;
}

function file(token, operand) {
  if (!isNamed(token)) throw unexpected(token, operand);
  if (!token.bytes.length || token.bytes.includes(0)) throw new Mistake(token.column, "a file's name has a letter at least, and no zero byte.");
  return token.bytes;
}

function word(token, operand) {
  if (token.kind !== "word") throw unexpected(token, operand);
  return token;
}

const one = reader => (tokens, operand) => [reader(tokens[0], operand), 1];
const READERS = {
  NAME: one(name), PROCESS: one(reference), MESSAGE: message, CALL: one(callNumber), PARTS: (tokens, operand) => hexWords(tokens, operand, 6),
  TICKS: one((token, operand) => number(token, operand, 1)), TEXT: one(text), FILE: one(file), WORD: one(word),
};

function formFrom(tokens, end, caller) {
  const wanted = caller ? "a call of who runs" : "the first word of a form ('help' names them all)";
  if (!tokens.length) throw expected("", end, wanted);
  const [first, next] = tokens, said = first.said.toLowerCase();
  const forms = first.kind === "word" ? FORMS.filter(form => form.parts[0] === said) : [];
  const words = caller ? FIRST_WORDS.filter(one => FORMS.some(form => form.parts[0] === one && BY_CALLER.includes(form.name))) : FIRST_WORDS;
  if (!forms.length) throw expected(first.said, first.column, wanted, words);
  if (caller && !BY_CALLER.includes(forms[0].name)) {
    throw new Mistake(first.column, `'${first.said}' comes from outside, so no process calls it; leave the name and the colon out.`);
  }
  if (forms.length === 1) return [forms[0], 1];
  const choices = forms.map(form => form.parts[1]), form = next && next.kind === "word" && forms[choices.indexOf(next.said.toLowerCase())];
  if (!form) throw expected(next ? next.said : "", next ? next.column : end, `${choices.slice(0, -1).join(", ")} or ${choices.at(-1)}`, choices);
  return [form, 2];
}

function valuesFrom(form, tokens, place, end) {
  const values = [];
  for (; place < form.parts.length; place++) {
    const part = form.parts[place];
    if (!tokens.length && form.ends.includes(place)) break;
    const wanted = isOperand(part) ? EXPECTED[part] : `'${part}'`;
    if (!tokens.length) throw expected("", end, wanted);
    let count = 1;
    if (isOperand(part)) {
      const [value, taken] = (READERS[part] || one(number))(tokens, part);
      values.push(value);
      count = taken;
    } else if (tokens[0].kind !== "word" || tokens[0].said.toLowerCase() !== part) throw expected(tokens[0].said, tokens[0].column, wanted, [part]);
    tokens = tokens.slice(count);
  }
  if (tokens.length) throw expected(tokens[0].said, tokens[0].column, "the end of the line");
  return values;
}

// The statement of a line: { name, caller, values }; null where there is nothing in it but a remark. Throws a Mistake.
export function readLine(line) {
  const trimmedLine = line.replace(/[\r\n]+$/, "");
  if (trimmedLine.startsWith("> ")) return { name: "answered", caller: null, values: [[...encoder.encode(trimmedLine.slice(2))]] };
  const tokens = cut(trimmedLine);
  if (!tokens.length) return null;
  const called = tokens.length > 1 && tokens[1].kind === "colon", caller = called ? reference(tokens[0]) : null;
  const end = tokens.at(-1).end, rest = called ? tokens.slice(2) : tokens;
  const [form, taken] = formFrom(rest, end, caller);
  return { name: form.name, caller, values: valuesFrom(form, rest.slice(taken), taken, end) };
}
