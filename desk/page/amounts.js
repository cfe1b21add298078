// Writes quantities, spans of time and times of the day as traders write them.

const whole = new Intl.NumberFormat('en-US'); // once: what a tick of fifty cards would take longest for
export const amount = quantity => whole.format(quantity);

// How many there are, of what a plain s makes many: 1 line, 1,024 lines.
export const counted = (number, name) => `${amount(number)} ${name}${number === 1 ? '' : 's'}`;

// Of a currency, with two places.
const twoPlaces = new Intl.NumberFormat('en-US', {minimumFractionDigits: 2, maximumFractionDigits: 2});
export const money = value => twoPlaces.format(value);

// With a sign, of what was bought less what was sold.
export const signed = quantity => (quantity > 0 ? '+' : quantity < 0 ? '\u2212' : '') + amount(Math.abs(quantity));

// 2,000,000; 2m; 1.5m; 2mm; 500k; 1b. Null where it is none: a comma stands before three digits, or 0,5m would be 5m.
export function parseAmount(entry) {
  const parts = /^((?:\d{1,3}(?:,\d{3})+|\d*)(?:\.\d*)?)\s*(k|mm|m|b)?$/i.exec(entry.trim());
  if (!parts || !/\d/.test(parts[1])) return null;
  const factor = {k: 1e3, m: 1e6, mm: 1e6, b: 1e9}[parts[2]?.toLowerCase()] ?? 1;
  const number = Math.round(Number(parts[1].replaceAll(',', '')) * factor * 1e6) / 1e6;
  return Number.isSafeInteger(number) && number > 0 ? number : null;
}

// Why a quantity is none, in words.
export function whyNoAmount(entry) {
  const typed = entry.trim();
  if (typed.includes(',')) return `${typed} has a comma that parts no thousands: write 0.5m or 500,000.`;
  if (/^-|^[0.]+\s*[a-z]*$/i.test(typed)) return 'A quantity is more than 0: 2,000,000, 2m or 500k.';
  if (/^\d{0,6}\.\d{1,6}$/.test(typed)) {
    return `${typed} is no whole number: write ${typed}m or ${amount(Math.round(Number(typed) * 1e6))}.`;
  }
  return `${typed} is no quantity: write 2,000,000, 2m or 500k.`;
}

// In seconds, of 90, 2:00, 1:30:00, 2m or 1h. Null where it is none.
export function parseSpan(entry) {
  const parts = /^(?:(?:(\d{1,2}):)?(\d{1,2}):([0-5]\d)|(\d{1,5})\s*([smh])?)$/i.exec(entry.trim());
  if (!parts) return null;
  const [hours, minutes, seconds] = parts.slice(1, 4).map(part => Number(part ?? 0));
  const number = parts[4] === undefined ? hours * 3600 + minutes * 60 + seconds
    : Number(parts[4]) * {s: 1, m: 60, h: 3600}[parts[5]?.toLowerCase() ?? 's'];
  return number || null;
}

// 1 min 30 s, of 90.
export function spanWords(seconds) {
  const parts = [[Math.floor(seconds / 3600), 'h'], [Math.floor(seconds / 60) % 60, 'min'], [seconds % 60, 's']];
  return parts.filter(([number]) => number).map(part => part.join(' ')).join(' ');
}

// 1:05 of 64.2 seconds, from milliseconds.
export function span(milliseconds) {
  const left = Math.max(0, Math.ceil(milliseconds / 1000));
  const hours = Math.floor(left / 3600), minutes = Math.floor(left / 60) % 60;
  const two = number => String(number).padStart(2, '0');
  return (hours ? `${hours}:${two(minutes)}` : String(minutes)) + `:${two(left % 60)}`;
}

// HH:MM:SS in UTC.
export const clock = moment => moment ? new Date(moment).toISOString().slice(11, 19) : '';
