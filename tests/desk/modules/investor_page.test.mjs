// An investor's page around its cards: the blotter and its file, positions, lists, earlier days and the ticket of a trade.
import assert from 'node:assert/strict';
import test from 'node:test';
import {answers, boxes, button, choose, clock, document, midday, press, rest, type, window, words} from './stand.mjs';
import {BOND, SECOND, asked, investorHello, offered} from './samples.mjs';
import {at, cards, desk, seen} from './whole.mjs';

const saved = [];
URL.createObjectURL = blob => { saved.push({blob}); return 'blob:x'; };
URL.revokeObjectURL = () => {};
window.HTMLAnchorElement.prototype.click = function () { saved.at(-1).name = this.download; };
const file = async () => { const {blob, name} = saved.pop(); return [name, (await blob.text()).split('\r\n')]; };
const quoted = ['DLR1', 'DLR2', 'DLR3'].map(name => ({name, answer: 'quoted'}));
const won = (id, price, ended, more = {}) => asked(id, {state: 'done', ended, trade: `T${id}`, award: {dealer: 'DLR1', price: price * 256, yield: 4.5}, cover: {price: 99.75 * 256, dealer: 'DLR2'}, dealers: quoted, ...more});
const day = [won('R1', 99.5, midday - 600_000), won('R2', 98, midday - 300_000, {side: 'sell', bond: SECOND, quantity: 1e6, cover: null, settles: '2026-12-01', accrued: 1.25, amounts: {principal: 980_000, accrued: 12_500, total: 992_500}}),
  asked('R3', {state: 'expired', ended: midday - 500_000, trader: 'V2', quotes: [offered('DLR3', 99.25)], dealers: quoted}), asked('R4', {state: 'passed', ended: midday - 400_000}),
  asked('R5', {state: 'refused', ended: midday - 700_000, told: {refusal: true, text: 'Quote 99.5 is none', at: midday},
    history: [{at: midday - 700_000, trader: 'V1', text: 'Asked', refusal: false}, {at: midday - 699_000, trader: '', text: 'Quote 99.5 is none', refusal: true}]}), asked('R6', {made: midday - 20_000, quotes: [offered('DLR1', 99)], dealers: [{name: 'DLR1', answer: 'quoted'}, {name: 'DLR2', answer: 'none'}]})];
await desk.open(investorHello({days: ['20261126', '20261125']}), ...day);
const blotter = at('blotter'), filter = at('filter');
const rows = () => [...blotter.querySelectorAll('.blotter tbody tr')];
const cells = row => [...row.children].slice(0, 9).map(words);
const notes = () => rows().map(row => words(row.querySelector('summary')));
const sums = () => words(blotter.querySelector('.sums'));

test('the requests of the day', () => {
  clock.pass(50);
  assert.deepEqual(rows().map(cells), [
    ['11:59:40', '', 'Buy', '2,000,000', 'Alder 4 2034', '', '', 'Open', 'V1'], ['11:59:50', '11:55:00', 'Sell', '1,000,000', 'Birch 3 2030', '98', 'DLR1', 'DONE', 'V1'],
    ['11:59:50', '11:53:20', 'Buy', '2,000,000', 'Alder 4 2034', '', '', 'Passed', 'V1'], ['11:59:50', '11:51:40', 'Buy', '2,000,000', 'Alder 4 2034', '', '', 'Expired', 'V2'],
    ['11:59:50', '11:50:00', 'Buy', '2,000,000', 'Alder 4 2034', '99.5', 'DLR1', 'DONE', 'V1'], ['11:59:50', '11:48:20', 'Buy', '2,000,000', 'Alder 4 2034', '', '', 'Refused', 'V1']]);
  assert.deepEqual(notes(), ['1 of 2 quoted', 'no cover', '3 asked', 'best 99.25, DLR3', 'cover 99.75, DLR2', 'Quote 99.5 is none']);
  assert.equal(sums(), '6 requests, 2 done: bought 2,000,000, sold 1,000,000');
  assert.match(words(rows()[1]), /Trade TR2.*As a help: settles 2026-12-01, accrued 1\.25 of 100, the buyer pays 992,500\.00 EUR, yield 4\.500 %/);
  assert.deepEqual(rows().map(row => row.className.trim()), ['', 'traded ended', 'ended', 'ended', 'traded ended', 'ended']);
  assert.match(words(at('keys')), /^F2 ticket/);
});

test('the history of a request', () => {
  const history = () => rows()[5].querySelector('details'), lines = () => [...history().querySelectorAll('div')].map(one => [words(one), one.className]);
  assert.deepEqual(lines(), [['11:48:20 V1 Asked', ''], ['11:48:21 Quote 99.5 is none', 'why']]);
  history().open = true;
  press(document.body, 'F4');
  assert.deepEqual([history().open, lines()[1][0], cells(rows()[4])[5]], [true, '11:48:21 Quote 99-16 is none', '99-16'], 'it stays open where its row is another');
  press(document.body, 'F4');
});

test('what a filter lets through', () => {
  const found = (text, ends = '') => { choose(at('ends'), ends); type(filter, text); return rows().length; };
  for (const [text, count] of Object.entries({birch: 1, 'ALDER buy': 5, '1m': 1, '2,000,000': 5, dlr1: 2, v2: 1, '99.5': 1, '99-16': 1, tr2: 1, refused: 1, [SECOND]: 1, 'birch buy': 0, 'passed alder': 1}))
    assert.equal(found(text), count, text);
  assert.deepEqual([found('', 'open'), found('', 'done'), found('', 'other'), found('birch', 'open'), found('')], [1, 2, 3, 0, 6]);
  found('birch');
  assert.equal(sums(), '1 of 6 requests, 1 done: bought 0, sold 1,000,000');
  found('');
});

test('in the order of a column', () => {
  const column = (name, of = 3) => { [...blotter.querySelectorAll('th button')].find(one => words(one).startsWith(name)).click(); return rows().map(row => cells(row)[of]); };
  const mark = name => words([...blotter.querySelectorAll('th button')].find(one => words(one).startsWith(name)));
  assert.equal(column('Quantity').at(-1), '1,000,000', 'numbers begin with the greatest');
  assert.equal(mark('Quantity'), 'Quantity \u25be');
  assert.equal([...blotter.querySelectorAll('th')].find(one => words(one).startsWith('Quantity')).getAttribute('aria-sort'), 'descending');
  assert.equal(column('Quantity')[0], '1,000,000');
  assert.equal(mark('Quantity'), 'Quantity \u25b4');
  assert.equal(column('Quantity')[1], '1,000,000', 'the third press leaves it');
  assert.deepEqual(column('Price', 5), ['99.5', '98', '', '', '', ''], 'what has no value stands last');
  assert.deepEqual(column('Price', 5), ['98', '99.5', '', '', '', '']);
  assert.deepEqual(column('Result', 7), ['DONE', 'DONE', 'Expired', 'Open', 'Passed', 'Refused'], 'words begin with the first');
  assert.deepEqual(column('Result', 7), ['Refused', 'Passed', 'Open', 'Expired', 'DONE', 'DONE']);
  choose(blotter.querySelector('select.by'), '0');
  assert.deepEqual(rows().map(row => cells(row)[0])[0], '11:59:50');
  choose(blotter.querySelector('select.by'), '');
  assert.equal(cells(rows()[0])[7], 'Open');
});

test('the file of the blotter', async () => {
  press(document.body, 'F4');
  button(blotter, 'Export CSV').click();
  press(document.body, 'F4');
  const [name, lines] = await file();
  assert.equal(name, 'INV1-20261127.csv');
  assert.equal(lines[0], 'request,asked_utc,ended_utc,side,quantity,bond,bond_name,price,counterparty,result,trader,trade,cover,note,help_settles,help_yield,help_accrued_of_100,help_principal,help_accrued,help_total,help_currency');
  assert.equal(lines[2], `R2,2026-11-27T11:59:50.000Z,2026-11-27T11:55:00.000Z,Sell,1000000,${SECOND},Birch 3 2030,98,DLR1,DONE,V1,TR2,,no cover,2026-12-01,4.5,1.25,980000.00,12500.00,992500.00,EUR`);
  assert.equal(lines[5], `R1,2026-11-27T11:59:50.000Z,2026-11-27T11:50:00.000Z,Buy,2000000,${BOND},Alder 4 2034,99.5,DLR1,DONE,V1,TR1,99.75,"cover 99.75, DLR2",,4.5,,,,,`);
  assert.match(lines[6], /,Refused,V1,,,Quote 99\.5 is none,/);
  assert.equal(words(document.querySelector('.said[role=status]')), 'INV1-20261127.csv: 6 requests');
  type(filter, 'birch');
  button(blotter, 'Export CSV').click();
  const [part, [, ...some]] = await file();
  assert.deepEqual([part, some.length], ['INV1-20261127-filtered.csv', 2]);
  assert.equal(words(document.querySelector('.said[role=status]')), 'INV1-20261127-filtered.csv: 1 request');
  type(filter, '');
});

test('positions of today', () => {
  const part = blotter.querySelector('.positions');
  assert.equal(words(part.querySelector('summary')), 'Position of today, in 2 bonds');
  assert.deepEqual([...part.querySelectorAll('tbody tr')].map(row => [...row.children].map(words)), [
    ['Alder 4 2034', '2,000,000', '0', '+2,000,000', '99.5', '11:50:00'], ['Birch 3 2030', '0', '1,000,000', '\u22121,000,000', '98', '11:55:00']]);
});

test('earlier days', async () => {
  choose(at('day'), '20261126');
  let [sent] = desk.heard;
  assert.deepEqual(sent, {do: 'day', date: '20261126', find: '', number: sent.number});
  assert.deepEqual([words(blotter.querySelector('h2')), words(blotter.querySelector('.bar span:last-child')), seen(blotter.querySelector('.positions'))], ['2026-11-26, read-only', 'Reading the journals \u2026', false]);
  desk.says({number: sent.number, date: '20261126', requests: [asked('R1', {history: []})], last: false});
  desk.says({number: sent.number, date: '20261126', requests: [won('R2', 97, midday)], last: true});
  assert.deepEqual([rows().map(row => cells(row)[7]), words(blotter.querySelector('.bar span:last-child'))], [['No end', 'DONE'], '']);
  button(blotter, 'Export CSV').click();
  const [name, lines] = await file();
  assert.deepEqual([name, lines.length, lines[2].slice(0, 3)], ['INV1-20261126.csv', 4, 'R2,'], 'the file of that day');
  assert.equal(button(rows()[0], 'Again'), undefined);
  const order = () => rows().map(row => cells(row)[3]);
  desk.heard;
  choose(at('day'), '20261125');
  [sent] = desk.heard;
  const part = (last, ...sizes) => desk.says({number: sent.number, date: '20261125', requests: sizes.map(size => asked(`S${size}`, {quantity: size, state: 'passed', ended: midday})), last});
  part(false, 1, 2);
  part(false, 3);
  desk.says({number: sent.number, date: '20261125', requests: [], last: true, why: 'The journal is cut.'});
  assert.equal(words(blotter.querySelector('.bar span:last-child')), 'The journal is cut.');
  assert.deepEqual(order(), ['3', '2', '1'], 'of one moment the newest first');
  type(filter, 'alder');
  assert.deepEqual(order(), ['3', '2', '1'], 'as often as it is drawn');
  type(filter, '');
  choose(at('day'), 'all');
  assert.deepEqual([desk.heard, words(blotter.querySelector('.bar span:last-child')), rows().length], [[], 'Type a bond, a firm, a quantity, a price or a trade into the filter.', 0]);
  type(filter, 'ald');
  clock.pass(300);
  type(filter, 'alder');
  clock.pass(399);
  assert.deepEqual(desk.heard, []);
  clock.pass(1);
  [sent] = desk.heard;
  assert.deepEqual(sent, {do: 'find', find: 'alder', number: sent.number});
  type(filter, 'alder 4');
  clock.pass(400);
  desk.says({number: sent.number, date: '20261125', requests: [asked('OLD')]});
  assert.equal(rows().length, 0, 'of the answers the last one alone counts');
  [sent] = desk.heard;
  desk.says({number: sent.number, date: '20261125', requests: [asked('R9', {history: []})], last: true});
  assert.deepEqual([cells(rows()[0])[0], rows()[0].className.trim()], ['2026-11-25 11:59:50', 'dated']);
  choose(at('day'), 'today');
  type(filter, '');
  assert.deepEqual([words(blotter.querySelector('h2')), rows().length], ['Today', 6]);
});

test('an earlier request is asked again', () => {
  button(rows()[1], 'Again').click();
  const ticket = at('ticket').querySelector('form');
  assert.deepEqual([at('bond').value, at('sell').checked, at('buy').checked, at('quantity').value], ['Birch 3 2030', true, false, '1,000,000']);
  assert.equal(at('deadline').value, '2:10', 'as long as it was asked for then, and not what is left of it');
  assert.deepEqual([...ticket.querySelectorAll('.picks input')].filter(one => one.checked).map(one => one.value), ['DLR1', 'DLR2', 'DLR3']);
  ticket.dispatchEvent(new window.Event('submit', {bubbles: true, cancelable: true}));
  assert.deepEqual([desk.heard, words(ticket.lastChild)], [[], 'Filled in just now: look at it, and press again.']);
  press(ticket, 'Escape');
});

test('the ticket of a trade', async () => {
  button(rows()[1], 'Ticket').click();
  const paper = at('paper'), terms = list => Object.fromEntries([...list.querySelectorAll('dt')].map(dt => [words(dt), words(dt.nextSibling)]));
  const [first, more] = paper.querySelectorAll('dl');
  assert.ok(paper.open && document.activeElement.textContent === 'Close');
  assert.deepEqual(terms(first), {Trade: 'TR2', 'Traded, UTC': '2026-11-27 11:55:00', Buyer: 'DLR1', Seller: 'INV1', Bond: 'Birch 3 2030', Identifier: SECOND,
    Nominal: '1,000,000', Price: '98 (98-00)', 'Trader of INV1': 'V1', Request: 'R2'});
  assert.deepEqual(terms(more), {'Settlement date': '2026-12-01', Yield: '4.5000 %', 'Accrued interest of 100': '1.25', Principal: '980,000.00 EUR', 'Accrued interest': '12,500.00 EUR', 'The buyer pays': '992,500.00 EUR'});
  button(paper, 'Save').click();
  const [name, lines] = await file();
  assert.deepEqual([name, lines[0], lines[2]], ['ticket-TR2.txt', 'Trade ticket of INV1', 'Trade                       TR2']);
  paper.close();
  button(rows()[4], 'Ticket').click();
  assert.deepEqual([terms(first).Buyer, words(paper.querySelector('p.quiet'))], ['INV1', 'This desk has no data of the bond: it works out no settlement date, accrued interest or amounts.']);
  paper.close();
});

test('a list that was asked at once', async () => {
  const line = (request, more = {}) => ({bond: BOND, side: 'buy', quantity: 1e6, request, state: 'sent', why: '', ...more});
  const list = {id: 'L1', name: 'my list', trader: 'V1', made: midday, lines: [line('N1'), line('N2', {side: 'sell'}), line('', {state: 'waiting'}), line('', {state: 'stopped', why: 'Stopped.'}), line('N3')]};
  desk.says({t: 'lists', lists: [list]});
  const mine = at('lists').querySelector('article'), lines = () => [...mine.querySelectorAll('tbody tr')].map(row => [...row.children].map(words).join('|'));
  desk.tells([asked('N1', {list: 'L1', deadline: clock.at + 60_000, quotes: [offered('DLR2', 99.5), offered('DLR1', 99.25)], dealers: quoted}), won('N2', 98, clock.at, {list: 'L1'}),
    asked('N3', {list: 'L1', state: 'expired', ended: clock.at, quotes: [offered('DLR3', 97)]})]);
  clock.pass(200);
  assert.deepEqual(lines(), ['1|BUY|1,000,000|Alder 4 2034|1:00, 3/3 quoted|99.25|DLR1', '2|SELL|1,000,000|Alder 4 2034|DONE|98|DLR1', '3|BUY|1,000,000|Alder 4 2034|waiting||',
    '4|BUY|1,000,000|Alder 4 2034|Stopped.||', '5|BUY|1,000,000|Alder 4 2034|expired|97|DLR3']);
  const parts = [...mine.querySelectorAll('tbody tr')].map(row => [row.className, row.dataset.side, row.querySelector('button').disabled]);
  assert.deepEqual(parts, [['open', 'buy', false], ['done', 'sell', false], ['waiting', 'buy', true], ['over', 'buy', true], ['over', 'buy', false]]);
  assert.equal(mine.querySelectorAll('tbody button')[1].getAttribute('aria-label'), 'To line 2: SELL 1,000,000 Alder 4 2034');
  assert.equal(words(mine.querySelector('p')), '5 lines by V1, 12:00:00 UTC: 1 waiting, 1 open, 1 done, 2 ended without a trade');
  assert.ok(seen(button(mine, 'Stop')) && !button(mine, 'Close'));
  const {trader} = investorHello();
  desk.says({t: 'trader', trader: {...trader, mayAct: false}});
  clock.pass(200);
  assert.equal(button(mine, 'Stop'), undefined, 'who may only look stops nothing');
  desk.says({t: 'trader', trader});
  clock.pass(200);
  button(mine, 'CSV').click();
  const [name, [head, ...rest]] = await file();
  assert.deepEqual([name, head], ['INV1-20261127-my_list.csv', 'line,request,side,quantity,bond,bond_name,state,price,counterparty,best,trade,note']);
  assert.deepEqual(rest.slice(0, 4), [`1,N1,Buy,1000000,${BOND},Alder 4 2034,"1:00, 3/3 quoted",,DLR1,99.25,,`, `2,N2,Sell,1000000,${BOND},Alder 4 2034,DONE,98,DLR1,99.75,TN2,`,
    `3,,Buy,1000000,${BOND},Alder 4 2034,waiting,,,,,`, `4,,Buy,1000000,${BOND},Alder 4 2034,Stopped.,,,,,Stopped.`]);
  const before = cards().length;
  assert.equal(cards().some(one => words(one).startsWith('BUY1,000,000')), false, 'a line has no card of its own');
  mine.querySelector('tbody button').click();
  assert.equal(cards().length, before + 1, 'until a trader goes to it');
  assert.ok(document.activeElement.closest('article.card'));
  button(mine, 'Stop').click();
  clock.pass(300);
  button(mine, 'Stop').click();
  const [sent] = desk.heard;
  assert.deepEqual(sent, {do: 'stop list', list: 'L1', number: sent.number});
  desk.says({t: 'lists', lists: [{...list, lines: list.lines.map(one => one.state === 'waiting' ? {...one, state: 'stopped', why: 'Stopped.'} : one)}]});
  desk.tells([asked('N1', {list: 'L1', state: 'passed', ended: clock.at})]);
  clock.pass(200);
  assert.equal(button(mine, 'Stop'), undefined);
  assert.deepEqual(['CSV', 'Close'].map(name => button(mine, name).getAttribute('aria-label')), ['CSV my list', 'Close my list']);
  assert.equal(mine.getAttribute('aria-label'), 'List my list');
  button(mine, 'Close').click();
  assert.equal(seen(at('lists')), false);
});

test('the table of what is open', () => {
  const table = at('table'), lines = () => [...table.querySelectorAll('tbody tr')].map(row => [...row.children].map(words).join('|'));
  desk.tells([asked('O1', {deadline: clock.at + 100_000, quantity: 1e6, dealers: quoted, quotes: [offered('DLR1', 99), offered('DLR2', 98.5, {valid: clock.at})]}),
    asked('O2', {deadline: clock.at + 50_000, side: 'sell', quantity: 3e6, bond: SECOND, quotes: [offered('DLR1', 97, {yield: 5})], dealers: quoted}), asked('R6', {state: 'passed', ended: clock.at})]);
  document.activeElement.blur();
  press(document.body, 'F8');
  clock.pass(200);
  assert.ok(seen(table) && document.body.classList.contains('tables'));
  assert.deepEqual(lines(), ['0:50|SELL|3,000,000|Birch 3 2030|97|5.000|3/3', '1:40|BUY|1,000,000|Alder 4 2034|99||3/3'], 'what ends first stands first');
  const none = () => [...table.querySelectorAll('p')].filter(seen).map(words);
  assert.deepEqual(none(), []);
  const [first, second] = table.querySelectorAll('button.line');
  assert.deepEqual([document.activeElement, first.tabIndex, second.tabIndex], [first, 0, -1]);
  assert.equal(first.getAttribute('aria-label'), 'SELL 3,000,000 Birch 3 2030 of V1, best 97 of DLR1');
  for (const [key, to] of [['ArrowDown', second], ['ArrowDown', second], ['ArrowUp', first], ['End', second], ['Home', first], ['PageDown', second], ['PageUp', first]]) {
    assert.ok(press(document.activeElement, key).defaultPrevented);
    assert.equal(document.activeElement, to, key);
  }
  press(document.body, 'F4');
  assert.match(lines()[0], /\|97-00\|/);
  press(document.body, 'F4');
  press(first, 'ArrowDown', {ctrlKey: true});
  assert.equal(document.activeElement, first);
  assert.equal(table.querySelector('tr.soon'), null);
  desk.tells([asked('O1', {deadline: clock.at + 15_100, quantity: 1e6, dealers: quoted, quotes: [offered('DLR1', 99)]})]);
  clock.pass(200);
  assert.deepEqual([...table.querySelectorAll('tr.soon')].map(row => words(row.children[0])), ['0:15'], 'what ends within fifteen seconds');
  desk.tells([asked('O1', {deadline: clock.at + 100_000, quantity: 1e6, dealers: quoted, quotes: [offered('DLR1', 99)]})]);
  clock.pass(200);
  desk.tells([asked('O2', {side: 'sell', quantity: 3e6, bond: SECOND, state: 'expired', ended: clock.at, deadline: clock.at + 50_000})]);
  clock.pass(200);
  assert.match(lines()[0], /^ended\|SELL/, 'a line under the keys stays');
  assert.deepEqual([...table.querySelectorAll('tr.quiet')].map(row => words(row.children[0])), ['ended']);
  second.click();
  assert.ok(document.activeElement.closest('article.card'));
  clock.pass(200);
  assert.equal(lines().length, 1);
  press(document.body, 'F8');
  assert.ok(table.contains(document.activeElement));
  press(document.body, 'F8');
  assert.deepEqual([seen(table), Boolean(document.activeElement.closest('article.card')), localStorage.getItem('table')], [false, true, 'hidden']);
  desk.tells([asked('O1', {deadline: clock.at + 60_000})]);
  clock.at += 1500; // no tick of the page comes
  press(document.body, 'F8');
  assert.match(lines()[0], /^0:59/, 'as of now, and not of the last tick');
  document.activeElement.blur();
  desk.tells([asked('O1', {state: 'passed', ended: clock.at})]);
  clock.pass(200);
  assert.deepEqual([lines(), none()], [[], ['No request is open.']]);
  at('table-button').click();
});

test('keys in a long table', () => {
  const table = at('table'), keys = () => [...table.querySelectorAll('button.line')];
  const many = (more = {}) => Array.from({length: 12}, (_, nth) => asked(`K${nth}`, {list: 'L9', deadline: clock.at + 60_000 + nth, ...more}));
  desk.tells(many());
  at('table-button').click();
  for (const [key, to] of [['Home', 0], ['PageDown', 10], ['PageDown', 11], ['PageUp', 1], ['PageUp', 0]]) {
    press(document.activeElement, key);
    assert.deepEqual([keys().indexOf(document.activeElement), keys().filter(one => one.tabIndex === 0)], [to, [document.activeElement]], key);
  }
  desk.says(investorHello({days: ['20261126', '20261125']}));
  desk.says(investorHello().session);
  assert.equal(document.activeElement, document.body);
  desk.tells(many(), true);
  assert.equal(document.activeElement, keys()[0], 'the keys are in the table where the desk comes back');
  document.activeElement.blur();
  desk.tells(many({state: 'passed', ended: clock.at}));
  at('table-button').click();
});

test('what the head says of its numbers', () => {
  assert.deepEqual([words(document.querySelector('.counts')), document.querySelector('.counts').title],
    ['Requests open 0 of 64 \u00b7 today 0 of 1,024', 'Of the firm: requests that are open, and those that the venue accepted today.']);
  desk.says({...investorHello().session, accepted: 1024});
  assert.equal(words(document.querySelector('.counts')), 'Requests open 0 of 64 \u00b7 today 1,024 of 1,024');
  desk.says(investorHello().session);
});

test('requests that are not in sight', () => {
  assert.equal(seen(at('elsewhere')), false);
  desk.tells([asked('E1', {deadline: clock.at + 60_000})]);
  boxes.set(cards().at(-1), {left: 0, top: 500, width: 100, height: 20});
  clock.pass(200);
  assert.match(words(at('elsewhere')), /1 open request is not on the screen.*Ends next: BUY 2,000,000 Alder 4 2034 1:00/);
});

test('news for a screen reader', () => {
  desk.tells([asked('S1', {trader: 'V2'}), asked('S2')]);
  assert.deepEqual([...at('news').children].map(words), ['New request: BUY 2,000,000 Alder 4 2034 of V2']);
  for (const id of '34567') desk.tells([asked(`S${id}`, {trader: 'V2', quantity: Number(id)})]);
  assert.deepEqual([at('news').children.length, words(at('news').firstChild)], [5, 'New request: BUY 3 Alder 4 2034 of V2']);
});

test('an investor leaves by one press', async () => {
  answers['/logout'] = {};
  desk.tells([asked('X1', {deadline: clock.at + 60_000, quotes: [offered('DLR1', 99)], dealers: quoted})]);
  const before = words(document.querySelector('.said[role=status]'));
  at('logout').click();
  await rest();
  assert.deepEqual([words(document.querySelector('.said[role=status]')), desk.socket.isClosed, location.reloads], [before, true, 1], 'the dealers\u2019 quotes are none of its own');
});
