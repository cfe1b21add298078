// In which order an investor's page reads, and where Tab goes.
import assert from 'node:assert/strict';
import test from 'node:test';
import {midday, words} from './stand.mjs';
import {SECOND, asked, investorHello, offered} from './samples.mjs';
import {at, card, desk} from './whole.mjs';

const dealers = [{name: 'DLR1', answer: 'quoted'}, {name: 'DLR2', answer: 'none'}, {name: 'DLR3', answer: 'none'}];
await desk.open(investorHello({groups: {rates: ['DLR1']}}), asked('R1', {bond: SECOND, trader: 'V2', settles: '2026-12-01', accrued: 1, dealers, quotes: [offered('DLR1', 99, {yield: 4.5})]}));

const nameOf = one => one.getAttribute('aria-label') ?? (one.id || (one.value && one.type !== 'button' && one.type !== 'submit' ? one.value : '') || words(one) || one.className);
const stops = node => [...node.querySelectorAll('button, input, select, textarea')].filter(one => one.checkVisibility()).map(nameOf);
const reads = node => {
  const parts = [];
  const walk = one => { if (one.nodeType === 3) parts.push(one.data); else if (!one.hidden && one.tagName !== 'OPTION') one.childNodes.forEach(walk); };
  walk(node);
  return parts.map(part => part.replaceAll(/[\u2007\u2008]/g, '').trim()).filter(Boolean);
};

test('the head', () => {
  assert.deepEqual(reads(at('top')), ['INV1', 'ann (V1), investor', '\u25cf Venue connected', '12:00:00 UTC', 'Requests open 0 of 64 \u00b7 today 0 of 1,024', 'Table', 'F8', 'Alerts: off', 'Prices:', 'decimal', '?', 'Log out']);
});

test('a card', () => {
  assert.deepEqual(reads(card(0)), ['BUY', '2,000,000  Birch 3 2030', '2:00', SECOND, 'by V2', 'Here today: no other price of this bond',
    'As a help: settles 2026-12-01, accrued 1 of 100', 'Dealer', 'Offer', 'Yield', '32nds off', 'Valid', 'Hit', 'DLR1', '99', '4.500', 'best', 'to end', 'Buy', '?',
    'DLR2', 'waiting', 'DLR3', 'waiting', '1 of 3 quoted, 2 waiting', 'Pass', '?']);
  assert.deepEqual(stops(card(0)), ['buy from DLR1 at 99, 4.500 %: 2,000,000 Birch 3 2030', 'Pass BUY 2,000,000 Birch 3 2030']);
});

test('the ticket', () => {
  const ticket = at('ticket');
  assert.deepEqual(reads(ticket), ['New request', 'Paste a list', 'Bond', 'Side', 'Buy', 'B', 'Sell', 'S', 'Quantity', 'Name', 'Deadline in', 'Dealers', 'all', 'none', 'rates', '\u00d7', '?',
    'The group rates', 'DLR1', 'DLR2', 'DLR3', 'Choose a bond, a side, a quantity.', 'Ask 1 dealer']);
  assert.deepEqual(stops(ticket), ['New request', 'many', 'bond', 'buy', 'sell', 'quantity', 'lines', 'list-name', 'deadline', 'all', 'none', 'rates', 'Remove the group rates', 'DLR1', 'DLR2', 'DLR3', 'Name of the group', 'Ask 1 dealer']);
  at('many').click();
  const list = ticket.querySelector('.many');
  assert.deepEqual([...list.querySelectorAll('thead th')].map(words), ['Line', 'Side', 'Quantity', 'Bond']);
});

test('the blotter and the table', () => {
  assert.deepEqual([...at('blotter').querySelectorAll('.blotter th')].map(words), ['Asked, UTC', 'Ended', 'Side', 'Quantity', 'Bond', 'Price', 'Dealer', 'Result', 'Trader', 'Note']);
  at('table-button').click();
  assert.deepEqual([...at('table').querySelectorAll('thead th')].map(one => words(one).replace(/ .$/, '')), ['Left', 'Side', 'Size', 'Bond', 'Best', 'Yield', 'Quotes']);
});

test('a list', () => {
  desk.says({t: 'lists', lists: [{id: 'L1', name: 'mine', trader: 'V1', made: midday, lines: [{bond: SECOND, side: 'buy', quantity: 1e6, request: '', state: 'waiting', why: ''}]}]});
  assert.deepEqual(reads(at('lists')), ['mine', 'Stop', '?', 'CSV', '1 line by V1, 12:00:00 UTC: 1 waiting', 'Line', 'Side', 'Quantity', 'Bond', 'State', 'Price', 'Dealer', '1', 'BUY', '1,000,000', 'Birch 3 2030', 'waiting']);
});

test('help', () => {
  at('help-button').click();
  assert.deepEqual(reads(at('help')).slice(0, 5), ['Help for an investor', 'Key', 'What it does', 'F2', 'The ticket: bond, side (B or S), quantity, deadline, dealers; Enter asks']);
  assert.deepEqual([...at('help').querySelectorAll('kbd')].map(words), ['F2', 'F3', '\u2191 \u2193', 'Enter', '?', 'F4', 'F8', 'Tab', 'Escape']);
  assert.deepEqual([...at('help').querySelectorAll('dt')].map(words), ['Ask', 'Many at once', 'Hit', 'The end', 'Sent is not done', 'Alerts']);
});
