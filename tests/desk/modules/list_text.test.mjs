// How a line of a pasted list is read, and what the page says of one that can't be asked.
import assert from 'node:assert/strict';
import test from 'node:test';
import {load} from './stand.mjs';
import {BOND, SECOND, investorHello} from './samples.mjs';

const {doubt, readList} = await load('list_text.js');
const {matches} = await load('bond_field.js');
const hello = investorHello();
hello.market.bonds = [...hello.market.bonds, {id: 'BONDC0000003', name: 'Alder 5 2036', grid: 32}];
const read = (text, more = {}) => readList(text, {...hello, ...more});
const [one] = [text => { const [{bond, side, quantity, why}] = read(text); return [bond?.id ?? null, side, quantity, why]; }];
const birch = [SECOND, 'buy', 1e6, ''];

test('lines that are read', () => {
  for (const text of ['birch b 1m', 'b birch 1m', '1m birch b', 'birch,buy,1m', 'Birch 3 2030\tBUY\t1,000,000', 'buy;1m;birch', '1,000,000 birch buy', 'b, 1m, birch',
    '"birch"\t"b"\t"1m"', `${SECOND} b 1m`, 'birch 3 2030 B 1mm', '  birch b 1m  ', '1000k\tbirch\tb', 'birch 1m b', 'b birch 3 2030 1m', 'birch 3 2030 1m b'])
    assert.deepEqual(one(text), birch, text);
  assert.deepEqual(one('birch s 1m'), [SECOND, 'sell', 1e6, '']);
  assert.deepEqual(one(`${BOND} sell 2m`), [BOND, 'sell', 2e6, '']);
});

test('lines that can not be asked', () => {
  const parted = 'A tab, a semicolon, a comma or a space parts bond, side and quantity.';
  const why = {
    'birch 1m': `It has no side: buy or sell. ${parted}`, 'birch\t1m': 'It has no side: buy or sell.', 'birch;b;1m;2m': 'It has more than one quantity.',
    'birch\tb\t2x': '2x is no quantity: write 2,000,000, 2m or 500k.', 'birch\tb\t1m\tx': 'It has more than a bond, a side and a quantity: x',
    'birch b': `It has no quantity: 2,000,000, 2m or 500k. ${parted}`, 'birch\tb': 'It has no quantity: 2,000,000, 2m or 500k.', 'birch b 6m': '6,000,000 is above the limit of 5,000,000 a request.',
    'oak b 1m': 'No bond has \u201coak\u201d in its name or identifier.', 'alder b 1m': '2 bonds have \u201calder\u201d in their name or identifier.', 'b;1m': 'It names no bond.',
    'oak b 6m': 'No bond has \u201coak\u201d in its name or identifier.', ['x'.repeat(201)]: 'It has more than 200 characters.'};
  for (const [text, words] of Object.entries(why)) assert.equal(read(text)[0].why, words, text);
  assert.deepEqual([read('x'.repeat(201))[0].text.length, read(`birch b 1m${' '.repeat(300)}`)[0].why], [200, '']);
  assert.equal(read('alder 4 2034 b 5m')[0].why, '');
});

test('the lines of a text', () => {
  assert.deepEqual(read('\r\n\nbirch b 1m\r\nalder 4 s 2m\rbirch s 3m\n').map(line => line.quantity), [1e6, 2e6, 3e6]);
  assert.equal(read('ISIN\tSide\tSize (nominal)\nbirch\tb\t1m').length, 1, 'its head is none');
  assert.equal(read('birch\tb\t1m\nbond\tside\tsize').length, 2, 'a head stands first');
  assert.equal(read('bond').length, 1);
  assert.equal(read(Array(1200).fill('birch b 1m').join('\n')).length, 1000);
  assert.deepEqual(read(''), []);
  assert.match(read('birch b 1m', {trader: {quantity: 1e6 - 1}})[0].why, /above the limit of 999,999/);
});

test('what a trader should look at', () => {
  const lines = read('birch b 1m\nbirch s 1m\nbirch b 2m\nalder 4 b 1m\nbirch b 1m\noak b 1m\noak b 1m');
  const open = [{bond: SECOND, side: 'buy', quantity: 2e6}];
  assert.deepEqual(lines.map((line, at) => doubt(line, at, lines, open)), ['', '', 'the same is open already', '', 'the same as line 1', '', '']);
});

test('bonds that are meant', () => {
  const ids = typed => matches(hello.market.bonds, typed).map(bond => bond.id.slice(4, 5)).join('');
  assert.deepEqual(['', 'ALDER', '20 alder', '5 2036', 'oak', 'bondb0000002', 'b', ' '].map(ids), ['ABC', 'AC', 'AC', 'C', '', 'B', 'BAC', 'ABC']);
});
