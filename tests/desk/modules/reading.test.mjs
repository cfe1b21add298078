// How the page reads what a trader types, and writes what it shows: prices, quantities, spans of time, yields, files.
import assert from 'node:assert/strict';
import test from 'node:test';
import {load} from './stand.mjs';

const amounts = await load('amounts.js');
const price = await load('price.js');
const {csv, money} = await load('csv.js');
const {parseYield, percent, accruedWords, helpWords} = await load('worked_out.js');

test('quantities that are read', () => {
  const right = {'2,000,000': 2e6, '2m': 2e6, '1.5m': 1.5e6, '2MM': 2e6, '500k': 5e5, '1b': 1e9, ' 7 ': 7, '1,000k': 1e6, '.5m': 5e5, '2 m': 2e6,
    '0.000001m': 1, '9007199254740991': 9007199254740991, '1.1m': 1_100_000};
  for (const [entry, value] of Object.entries(right)) assert.equal(amounts.parseAmount(entry), value, entry);
  for (const entry of ['', 'm', '0', '0m', '-1', '0,5m', '1,00', '1,00k', '1,0000', '2,5000k', '1,000,00', '2x', '1.5', '2m m', ',', '1e6', '9007199254740992', '0.0000001m'])
    assert.equal(amounts.parseAmount(entry), null, entry);
});

test('why a quantity is none', () => {
  const why = {'0,5m': '0,5m has a comma that parts no thousands: write 0.5m or 500,000.', '-2m': 'A quantity is more than 0: 2,000,000, 2m or 500k.',
    '0.0 m': 'A quantity is more than 0: 2,000,000, 2m or 500k.', ' 1.5 ': '1.5 is no whole number: write 1.5m or 1,500,000.',
    '12.3456789': '12.3456789 is no quantity: write 2,000,000, 2m or 500k.', 'x': 'x is no quantity: write 2,000,000, 2m or 500k.'};
  for (const [entry, words] of Object.entries(why)) assert.equal(amounts.whyNoAmount(entry), words);
});

test('spans of time that are read', () => {
  const right = {90: 90, '2:00': 120, '1:30:00': 5400, '2m': 120, '1h': 3600, '45 s': 45, '0:05': 5, ' 3M ': 180, '00:01:01': 61, 99999: 99999};
  for (const [entry, value] of Object.entries(right)) assert.equal(amounts.parseSpan(entry), value, entry);
  for (const entry of ['', '0', '0:00', '2:60', 'x', '1:2:3', '1d', '123456', '2:00m', '1:00:60'])
    assert.equal(amounts.parseSpan(entry), null, entry);
});

test('spans of time that are written', () => {
  const words = {90: '1 min 30 s', 3600: '1 h', 3661: '1 h 1 min 1 s', 59: '59 s', 60: '1 min', 7325: '2 h 2 min 5 s'};
  for (const [seconds, text] of Object.entries(words)) assert.equal(amounts.spanWords(Number(seconds)), text);
  const left = {0: '0:00', '-5': '0:00', 1: '0:01', 64_200: '1:05', 3_599_000: '59:59', 3_600_000: '1:00:00', 7_265_000: '2:01:05', 59_001: '1:00'};
  for (const [milliseconds, text] of Object.entries(left)) assert.equal(amounts.span(Number(milliseconds)), text);
  assert.equal(amounts.clock(Date.UTC(2026, 0, 2, 3, 4, 5, 678)), '03:04:05');
  assert.equal(amounts.clock(null), '');
});

test('numbers that are written', () => {
  assert.deepEqual([amounts.amount(2e6), amounts.money(1234.5), amounts.signed(5e5), amounts.signed(-1000), amounts.signed(0)],
    ['2,000,000', '1,234.50', '+500,000', '\u22121,000', '0']);
});

const asDecimals = () => { if (price.mode.thirtySeconds) price.toggleMode(); };
const as32nds = () => { if (!price.mode.thirtySeconds) price.toggleMode(); };

test('prices that are written', () => {
  const both = {[99 * 256]: ['99', '99-00'], [99 * 256 + 132]: ['99.515625', '99-16+'], [99 * 256 + 128]: ['99.5', '99-16'],
    [100 * 256 + 255]: ['100.99609375', '100-317'], [256 + 1]: ['1.00390625', '1-001'], [8]: ['0.03125', '0-01']};
  for (const [value, [decimal, parts]] of Object.entries(both)) {
    assert.deepEqual([price.decimal(Number(value)), price.thirtySeconds(Number(value))], [decimal, parts]);
  }
  as32nds();
  asDecimals();
  assert.deepEqual([price.text(25476), price.other(25476), localStorage.getItem('prices')], ['99.515625', '99-16+', 'decimal']);
  as32nds();
  assert.deepEqual([price.text(25476), price.other(25476), localStorage.getItem('prices')], ['99-16+', '99.515625', '32nds']);
});

test('prices that stand under each other', () => {
  const figure = '\u2007';
  asDecimals();
  assert.equal(price.aligned(99 * 256 + 128, 256), `99.5${figure.repeat(7)}`);
  assert.equal(price.aligned(99 * 256, 32), `99${figure.repeat(6)}`);
  assert.equal(price.aligned(99 * 256 + 1, 256), '99.00390625');
  as32nds();
  assert.equal(price.aligned(99 * 256, 256), `99-00${figure}`);
  assert.equal(price.aligned(99 * 256 + 1, 256), '99-001');
  assert.equal(price.aligned(99 * 256, 32), '99-00');
  assert.deepEqual([price.apart(8, 32), price.apart(-12, 256), price.apart(16, 256), price.apart(1, 256)],
    ['1', `1.5${figure.repeat(2)}`, `2\u2008${figure.repeat(3)}`, '0.125']);
});

test('prices that are read', () => {
  asDecimals();
  const right = {99.5: 25472, '99-16+': 25476, "99'16": 25472, '99-163': 25475, '.5': 128, '99.': 25344, 100: 25600, ' 1 ': 256, '999-317': 255_999,
    '99-00': 25344, '99-317': 25599};
  for (const [entry, value] of Object.entries(right)) assert.deepEqual(price.parse(entry, 256), {price: value}, entry);
  const why = {'': 'Type a price: 99.515625 or 99-16+.', x: 'A price is 99.515625 or 99-16+.', '99-32': 'There are 32 thirty-seconds: 00 to 31.',
    '99-168': 'A price is 99.515625 or 99-16+.', 0: 'A price is more than 0, and 999.99609375 at most.',
    1000: 'A price is more than 0, and 999.99609375 at most.', '99.001': 'Off the grid of 1/256: 99 or 99.00390625.', '.': 'A price is 99.515625 or 99-16+.'};
  for (const [entry, words] of Object.entries(why)) assert.deepEqual(price.parse(entry, 256), {why: words}, entry);
  assert.deepEqual(price.parse('99-16+', 32), {why: 'Off the grid of 1/32: 99.5 or 99.53125.'});
  assert.deepEqual(price.parse('99.51', 256), {why: 'Off the grid of 1/256: 99.5078125 or 99.51171875.'});
  const bond = {grid: 64, low: 25_344, high: 25_472}, outside = {why: 'Outside the bond\u2019s band: 99 to 99.5.'};
  for (const [entry, read] of Object.entries({99: {price: 25_344}, 99.5: {price: 25_472}, 98.984375: outside, '99-16+': outside}))
    assert.deepEqual(price.parseQuote(entry, bond), read, entry);
  assert.deepEqual(price.parseQuote('99.01', bond), {why: 'Off the grid of 1/64: 99 or 99.015625.'});
  assert.deepEqual(price.parseQuote('999.984375', {grid: 64}), {price: 255_996});
});

test('a line of the desk', () => {
  const line = 'DLR1 quotes 99.515625, ann withdraws 100, 12:00:00; 3 by 99.3 of 99.5';
  asDecimals();
  assert.equal(price.inMode(line), line);
  as32nds();
  assert.equal(price.inMode(line), 'DLR1 quotes 99-16+, ann withdraws 100-00, 12:00:00; 3 by 99.3 of 99.5');
  assert.equal(price.inMode('Quote 99.5.'), 'Quote 99-16.');
  const others = {'Live: 99.5': 'Live: 99-16', 'Withdrawn: 99.515625': 'Withdrawn: 99-16+', 'DLR1 replaces 99.5 by 99.25': 'DLR1 replaces 99-16 by 99-08', 'Done with DLR1 at 99.25': 'Done with DLR1 at 99-08',
    'Quote 99.5 refused: the exposure would be 2 of 1': 'Quote 99-16 refused: the exposure would be 2 of 1', 'Quote 99.25 never delivered: it is too old': 'Quote 99-08 never delivered: it is too old'};
  for (const [told, words] of Object.entries(others)) assert.equal(price.inMode(told), words);
  asDecimals();
});

test('yields that are read and written', () => {
  const right = {'4.25%': 4.25, '4.25 %': 4.25, 'y4.25': 4.25, 'Y -1': -1, '-0.5%': -0.5, '5.%': 5};
  for (const [entry, value] of Object.entries(right)) assert.equal(parseYield(entry), value, entry);
  for (const entry of ['4.25', '', '%', 'y', '1234%', 'y4.25%']) assert.equal(parseYield(entry), null, entry);
  assert.deepEqual([percent(4.1), percent(null), percent(undefined), percent(0), percent(1.23456, 4)], ['4.100 %', '', '', '0.000 %', '1.2346 %']);
  assert.deepEqual([accruedWords(-0.5), accruedWords(0), accruedWords(1.25)], ['ex-dividend, accrued \u22120.5', 'accrued 0', 'accrued 1.25']);
});

test('what the desk has worked out', () => {
  assert.equal(helpWords({}, {}), '');
  assert.equal(helpWords({settles: '2026-12-01', accrued: 1.5}, {}), 'As a help: settles 2026-12-01, accrued 1.5 of 100');
  assert.equal(helpWords({settles: '2026-12-01', accrued: 1.5, amounts: {total: 1e6}}, {currency: 'USD'}),
    'As a help: settles 2026-12-01, accrued 1.5 of 100, the buyer pays 1,000,000.00 USD');
});

test('a file for a spreadsheet', () => {
  assert.equal(csv([['a', 1, null], ['b,c', 'say "x"', undefined]]), 'a,1,\r\n"b,c","say ""x""",\r\n');
  const begins = {'=1': "'=1", '+1': "'+1", '-1': "'-1", '@x': "'@x", 'a;=1': '"a;\'=1"', 'a|-1': "a|'-1", '\uff1d1': "'\uff1d1", 'a=1': 'a=1', 'a-b': 'a-b'};
  for (const [value, cell] of Object.entries(begins)) assert.equal(csv([[value]]), `${cell}\r\n`);
  assert.equal(csv([[-1]]), '-1\r\n');
  assert.equal(csv([[1980997.6, 0, -12.5, undefined].map(money)]), '1980997.60,0.00,-12.50,\r\n');
  assert.equal(csv([['a\n=1', 'a\tb']]), '"a\n=1","a\tb"\r\n');
});
