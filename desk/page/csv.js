// Writes rows as a file for a spreadsheet.

// Where a cell begins: at the text's own begin, and behind what parts cells in spreadsheets of other countries.
const formula = /(^|[;|\t]\s*)(?=[=+\-@\t\r\n\uff1d\uff0b\uff0d\uff20])/g;

// A text that a spreadsheet would take for a formula, in some languages by a letter of full width, gets an apostrophe.
function cell(value) {
  const text = String(value ?? ''), safe = typeof value === 'string' ? text.replace(formula, "$1'") : text;
  return /[",;\t\r\n]/.test(safe) ? `"${safe.replaceAll('"', '""')}"` : safe;
}

// Money, always with two decimals. Below zero it stays a number, where a text would get an apostrophe.
export const money = amount => amount === undefined ? '' : {toString: () => amount.toFixed(2)};

export const csv = rows => rows.map(row => row.map(cell).join(',')).join('\r\n') + '\r\n';

export function save(name, text, type = 'text/csv') {
  const link = document.createElement('a');
  link.href = URL.createObjectURL(new Blob([text], {type}));
  link.download = name;
  link.click();
  setTimeout(() => URL.revokeObjectURL(link.href), 60_000);
}
