// Reads a list as it comes from a spreadsheet: one request a line, with a bond, a side and a quantity, in any order.
import {amount, parseAmount, whyNoAmount} from './amounts.js';
import {matches} from './bond_field.js';

const sides = {b: 'buy', buy: 'buy', s: 'sell', sell: 'sell'};
const headWords = ['bond', 'isin', 'security', 'side', 'quantity', 'size', 'nominal', 'amount', 'name', 'identifier'];

const parted = 'A tab, a semicolon, a comma or a space parts bond, side and quantity.';
const longest = 200; // characters of a line
const mostRead = 1000; // lines, of which a list may have less

const sideBetween = /^(.+?)[,\s]+(buy|sell|b|s)[,\s]+(\S.*)$/i;
const sideFirst = /^(buy|sell|b|s)[,\s]+(\S.*)$/i;
const sideLast = /^(.*\S)[,\s]+(buy|sell|b|s)$/i;
const wordFirst = /^(\d{1,3}(?:,\d{3})+\S*?|[^,\s]+)[,\s]+(\S.*)$/;
const wordLast = /^(.*?\S)[,\s]+(\S+)$/;

// A bond and a quantity without anything that parts them: the quantity is the first word or the last one. One cell where
// either may be it.
function withQuantity(text) {
  const first = wordFirst.exec(text)?.slice(1) ?? [], last = wordLast.exec(text)?.slice(1) ?? [];
  const isFirst = parseAmount(first[0] ?? '') !== null, isLast = parseAmount(last[1] ?? '') !== null;
  return isFirst === isLast ? [text] : isFirst ? first : last;
}

// The cells of a line: parted by tabs or semicolons, as spreadsheets do, or else by commas or spaces round the side.
function partsOf(line) {
  if (line.includes('\t')) return line.split('\t');
  if (line.includes(';')) return line.split(';');
  const first = sideFirst.exec(line), last = sideLast.exec(line);
  return first ? [first[1], ...withQuantity(first[2])] : last ? [...withQuantity(last[1]), last[2]] : sideBetween.exec(line)?.slice(1) ?? [line];
}

const cellsOf = line => partsOf(line).map(part => part.trim().replace(/^"(.*)"$/, '$1').replaceAll('""', '"').trim()).filter(Boolean);

const isHead = cells => cells.length > 1 && cells.every(cell => headWords.some(word => cell.toLowerCase().includes(word)));

function bondOf(bonds, typed) {
  const wanted = typed.toLowerCase(), same = bonds.filter(bond => [bond.id, bond.name].some(name => name.toLowerCase() === wanted));
  const found = same.length ? same : matches(bonds, typed);
  if (found.length === 1) return {bond: found[0]};
  return {why: found.length ? `${found.length} bonds have \u201c${typed}\u201d in their name or identifier.` : `No bond has \u201c${typed}\u201d in its name or identifier.`};
}

// One line, checked: {text, bond, side, quantity, why}, where `why` is empty if it can be asked.
function lineOf(text, market, most) {
  if (text.length > longest) return {text: text.slice(0, longest), bond: null, side: null, quantity: null, why: `It has more than ${longest} characters.`};
  const cells = cellsOf(text), side = cells.map(cell => sides[cell.toLowerCase()]).find(Boolean) ?? null;
  const rest = cells.filter(cell => !(cell.toLowerCase() in sides)), amounts = rest.filter(cell => parseAmount(cell) !== null);
  const quantity = amounts.length === 1 ? parseAmount(amounts[0]) : null, names = rest.filter(cell => cell !== amounts[0]);
  const {bond = null, why = ''} = names.length ? bondOf(market.bonds, names[0]) : {why: 'It names no bond.'};
  const line = {text, bond, side, quantity, why};
  if (side === null) line.why = `It has no side: buy or sell.${cells.length === 1 ? ` ${parted}` : ''}`;
  else if (amounts.length > 1) line.why = 'It has more than one quantity.';
  else if (names.length > 1 && quantity === null) line.why = whyNoAmount(names[1]);
  else if (names.length > 1) line.why = `It has more than a bond, a side and a quantity: ${names[1]}`;
  else if (quantity === null) line.why = `It has no quantity: 2,000,000, 2m or 500k.${cells.length === 2 && !/[\t;]/.test(text) ? ` ${parted}` : ''}`;
  else if (!why && quantity > most) line.why = `${amount(quantity)} is above the limit of ${amount(most)} a request.`;
  return line;
}

// All lines of a text, in its order. `hello` has the bonds and the limits.
export function readList(text, {market, trader}) {
  const most = Math.min(market.limits.quantity, trader.quantity ?? Infinity);
  const lines = text.split(/\r\n|\r|\n/).map(line => line.trim()).filter(Boolean).slice(0, mostRead);
  if (lines.length && lines[0].length <= longest && isHead(cellsOf(lines[0]))) lines.shift();
  return lines.map(line => lineOf(line, market, most));
}

// What a trader should look at in a line that can be asked: the same stands above, or is open already.
export function doubt(line, at, lines, requests) {
  if (line.why) return '';
  const same = other => other.side === line.side && other.quantity === line.quantity;
  const twin = lines.slice(0, at).findIndex(other => !other.why && other.bond === line.bond && same(other));
  if (twin >= 0) return `the same as line ${twin + 1}`;
  return requests.some(one => one.bond === line.bond.id && same(one)) ? 'the same is open already' : '';
}
