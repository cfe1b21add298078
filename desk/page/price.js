// Reads and writes prices: whole numbers of 256ths of a point, as decimals or in 32nds.

const key = 'prices';
export const mode = {thirtySeconds: localStorage.getItem(key) === '32nds'};

export function toggleMode() {
  mode.thirtySeconds = !mode.thirtySeconds;
  localStorage.setItem(key, mode.thirtySeconds ? '32nds' : 'decimal');
}

export const greatest = 255_999;

// Exact: eight binary places.
export function decimal(price) {
  return String(price / 256);
}

// 99-16+ is 99 and 16.5/32; a third digit counts eighths of a 32nd, of which + is four.
export function thirtySeconds(price) {
  const rest = price % 256, eighths = rest % 8;
  const whole = `${Math.floor(price / 256)}-${String(Math.floor(rest / 8)).padStart(2, '0')}`;
  return whole + (eighths === 0 ? '' : eighths === 4 ? '+' : String(eighths));
}

export const text = price => mode.thirtySeconds ? thirtySeconds(price) : decimal(price);
export const other = price => mode.thirtySeconds ? decimal(price) : thirtySeconds(price);

// With figure spaces behind it, so that the points of a column stand under each other.
export function aligned(price, grid) {
  const out = text(price);
  const at = out.search(/[.-]/);
  const behind = at < 0 ? 0 : out.length - at;
  const width = mode.thirtySeconds ? (grid > 32 ? 4 : 3) : 1 + Math.log2(grid);
  return out + '\u2007'.repeat(Math.max(0, width - behind));
}

// How far two prices are apart, in 32nds.
export function apart(difference, grid) {
  const [whole, part = ''] = String(Math.abs(difference) / 8).split('.');
  const places = Math.log2(grid) - 5;
  const point = part ? `.${part}` : places ? '\u2008' : '';
  return whole + point + '\u2007'.repeat(places - part.length);
}

// A line of the desk, which writes prices as decimals, with its prices as the page shows them.
const told = /(?<=(?:^|\s)(?:Quote|Live:|Withdrawn:|quotes|withdraws|replaces|by|at)\s)\d{1,6}(?:\.\d{1,8})?(?=[\s.,:;]|$)/g;
export const inMode = line => !mode.thirtySeconds ? line
  : line.replace(told, number => Number.isInteger(Number(number) * 256) ? thirtySeconds(Number(number) * 256) : number);

function in256ths(typed) {
  const parts = /^(\d{1,9})[-'](\d{1,2})([+1-7])?$/.exec(typed);
  if (parts) {
    if (Number(parts[2]) > 31) return {why: 'There are 32 thirty-seconds: 00 to 31.'};
    const eighths = parts[3] === '+' ? 4 : Number(parts[3] ?? 0);
    return {price: Number(parts[1]) * 256 + Number(parts[2]) * 8 + eighths};
  }
  if (/^(\d{1,9}(\.\d{0,10})?|\.\d{1,10})$/.test(typed)) return {price: Number(typed) * 256};
  return {why: typed ? 'A price is 99.515625 or 99-16+.' : 'Type a price: 99.515625 or 99-16+.'};
}

// What a trader typed, as {price}, or {why} it is none, in words.
export function parse(entry, grid) {
  const {price, why} = in256ths(entry.trim());
  if (why) return {why};
  if (price <= 0 || price > greatest) return {why: `A price is more than 0, and ${text(greatest)} at most.`};
  const step = 256 / grid;
  if (price % step !== 0) {
    const below = Math.floor(price / step) * step;
    return {why: `Off the grid of 1/${grid}: ${text(below)} or ${text(below + step)}.`};
  }
  return {price};
}

// The same of a price that is quoted: in the bond's band too, where it has one.
export function parseQuote(entry, {grid, low, high}) {
  const read = parse(entry, grid), {price, why} = read;
  return why || low === undefined || (low <= price && price <= high) ? read : {why: `Outside the bond\u2019s band: ${text(low)} to ${text(high)}.`};
}
