// In which order a dealer's page reads, and where Tab goes.
import assert from 'node:assert/strict';
import test from 'node:test';
import {document, midday, words} from './stand.mjs';
import {SECOND, dealerHello, own, request} from './samples.mjs';
import {at, card, desk} from './whole.mjs';

const trader = {...dealerHello().trader, isAdmin: true};
await desk.open(dealerHello({trader, days: ['20261126'], session: {exposure: 2e6, accepted: 1}}),
  request('R1', {bond: SECOND, settles: '2026-12-01', accrued: 1, claimed: {login: 'ann', trader: 'T1', at: midday}, quotes: [own(99, {state: 'live'})]}));
desk.says({t: 'programs', programs: [{name: 'auto', trader: 'ann', isOn: false, isStopped: false, by: '', since: midday}]});

const nameOf = one => one.getAttribute('aria-label') ?? (one.id || words(one) || one.className);
const stops = node => [...node.querySelectorAll('button, input, select, textarea, summary')].filter(one => one.checkVisibility()).map(nameOf);
const reads = node => {
  const parts = [];
  const walk = one => { if (one.nodeType === 3) parts.push(one.data); else if (!one.hidden && one.tagName !== 'OPTION') one.childNodes.forEach(walk); };
  walk(node);
  return parts.map(part => part.replaceAll(/[\u2007\u2008]/g, '').trim()).filter(Boolean);
};

test('the head', () => {
  assert.deepEqual(reads(at('top')), ['DLR1', 'ann (T1), dealer', '\u25cf Venue connected', '12:00:00 UTC',
    'Exposure 2,000,000 of 60,000,000 (3 %) \u00b7 quotes today 1 of 4,096', 'Cancel all', 'F9', 'Limits', 'Table', 'F8', 'Alerts: off', 'Prices:', 'decimal', '?', 'Log out']);
});

test('a card', () => {
  assert.deepEqual(reads(card(0)), ['OFFER', '2,000,000  Birch 3 2030', '2:00', 'INV1 buys', SECOND, 'Live 99 (', '99-00', '), to the deadline',
    'Here today: no other price of this bond', 'As a help: settles 2026-12-01, accrued 1 of 100', 'Replace', 'steps of 1/32, your last 99', 'Withdraw', 'Yours, 12:00 UTC', 'Release', 'Hand over']);
  assert.deepEqual(stops(card(0)), ['Offer for 2,000,000 Birch 3 2030', 'Valid for: OFFER 2,000,000 Birch 3 2030 for INV1', 'Replace OFFER 2,000,000 Birch 3 2030 for INV1',
    'Withdraw OFFER 2,000,000 Birch 3 2030 for INV1', 'Release OFFER 2,000,000 Birch 3 2030 for INV1', 'Hand over OFFER 2,000,000 Birch 3 2030 for INV1', 'Hand over OFFER 2,000,000 Birch 3 2030 for INV1']);
  assert.deepEqual([...card(0).querySelectorAll('.seconds option')].map(one => `${one.value} ${words(one)}`), ['0 to deadline', '10 10 s', '30 30 s', '60 1 min', '300 5 min']);
});

test('programs', () => {
  assert.deepEqual(reads(at('programs')), ['Program auto', 'not connected', 'Stop']);
});

test('the blotter', () => {
  assert.deepEqual(stops(at('blotter')).slice(0, 5), ['Which day', 'Filter by bond, firm, side, result, quantity or price', 'Which results', 'Sort by', 'Export CSV']);
  const options = id => [...document.querySelectorAll(`${id} option`)].map(one => `${one.value}|${words(one)}`);
  assert.deepEqual([options('#day'), options('#ends')], [['today|today', '20261126|2026-11-26', 'all|earlier days: find'], ['|all', 'open|open', 'done|done', 'other|not done']]);
  assert.deepEqual([...at('blotter').querySelectorAll('.blotter th')].map(words), ['Asked, UTC', 'Ended', 'Side', 'Quantity', 'Bond', 'My price', 'Investor', 'Result', 'Trader', 'Note']);
  assert.deepEqual(options('#blotter select.by'), ['|sort', '0|Asked, UTC', '1|Ended', '2|Side', '3|Quantity', '4|Bond', '5|My price', '6|Investor', '7|Result', '8|Trader']);
  assert.deepEqual([...at('blotter').querySelectorAll('.positions th[scope=col]')].map(words), ['Bond', 'Bought', 'Sold', 'Net', 'Last trade', 'UTC']);
});

test('the table of what is open', () => {
  at('table-button').click();
  assert.deepEqual([...at('table').querySelectorAll('thead th')].map(one => words(one).replace(/ .$/, '')), ['Left', 'Side', 'Size', 'Bond', 'Live', 'Yield', 'Investor']);
  assert.deepEqual(reads(at('table').querySelector('tbody')), ['2:00', 'OFFER', '2,000,000', 'Birch 3 2030', '99', 'INV1']);
});

test('dialogs', () => {
  desk.says({t: 'limits', traders: [{login: 'ann', trader: 'T1', mayAct: true, quantity: null, exposure: null, used: 0}]});
  desk.says({t: 'references', references: {[SECOND]: {price: 99 * 256, at: midday, by: 'tom'}}, distance: null});
  for (const [id, name] of [['limits', 'limits-button'], ['alerts', 'alerts-button'], ['help', 'help-button']]) { at(name).click(); assert.ok(at(id).open, id); }
  assert.deepEqual(reads(at('limits')), ['Limits of the firm', 'Trader', 'Quantity of a request', 'Exposure', 'Used', 'Set', 'ann (T1)', '0', 'Set', 'References', 'Set the reference',
    'Bond', 'Price', 'Set, UTC', 'By', 'Remove', 'Birch 3 2030', '99', '12:00:00', 'tom', 'Remove', 'A typed word is wanted beyond', 'points', 'Set the distance', 'Close']);
  assert.deepEqual(stops(at('limits')), ['Quantity of ann', 'Exposure of ann', 'Set the limits of ann', 'Bond of the reference', 'Reference price', 'Set the reference', 'Remove the reference of Birch 3 2030',
    'Distance in points', 'Set the distance', 'Close']);
  assert.deepEqual(reads(at('alerts')).slice(0, 10), ['Alerts', 'What this page announces while you look elsewhere. This browser keeps your choice.', 'What', 'Sound', 'Notification', 'Listen',
    'New request', 'Hear', 'Trade', 'Hear']);
  assert.deepEqual(stops(at('alerts')).slice(0, 3), ['Sound: New request', 'Notification: New request', 'Hear: New request']);
  assert.deepEqual(reads(at('help')).slice(0, 5), ['Help for a dealer', 'Key', 'What it does', 'F2', 'The request without a quote that ends next']);
  const heads = [...at('help').querySelectorAll('dt')].map(words);
  assert.deepEqual(heads, ['Quote', 'Colleagues', 'Decline', 'Exposure', 'Sent is not done', 'Alerts']);
});
