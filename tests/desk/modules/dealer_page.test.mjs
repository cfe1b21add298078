// A dealer's page around its cards: the head, the alarm, keys, places of cards, the table, programs, limits and a logout.
import assert from 'node:assert/strict';
import test from 'node:test';
import {answers, boxes, button, clock, click, document, midday, Notice, press, rest, Socket, type, window, words} from './stand.mjs';
import {BOND, SECOND, dealerHello, own, request} from './samples.mjs';
import {at, card, cards, desk, seen, told} from './whole.mjs';

const trader = {...dealerHello().trader, isAdmin: true};
const hello = (more = {}) => dealerHello({trader, ...more});
localStorage.setItem('alerts', '{"sound": [], "notification": ["request"]}');
await desk.open(hello({banner: 'A trial.', session: {exposure: 3e6, accepted: 7}}), request('R1'));
const head = at('top'), light = () => words(head.querySelector('.light')), counts = () => words(head.querySelector('.counts'));
const said = () => words(document.querySelector('.said[role=status]'));
const session = (more = {}) => desk.says({...hello().session, ...more});
const live = (id, price, more = {}) => request(id, {quotes: [own(price, {state: 'live'})], ...more});

// Requests that ended long ago, whose cards and places have gone.
function gone(...ids) {
  desk.tells(ids.map(id => request(id, {state: 'passed', ended: midday - 100_000})));
  clock.skip(12_000);
}

test('the head', () => {
  assert.deepEqual([words(head.querySelector('.who')), light(), counts()],
    ['DLR1 ann (T1), dealer', '\u25cf Venue connected', 'Exposure 3,000,000 of 60,000,000 (5 %) \u00b7 quotes today 7 of 4,096']);
  assert.deepEqual([words(at('banner')), seen(at('banner')), words(head.querySelector('.clock'))], ['A trial.', true, '12:00:00 UTC']);
  assert.match(words(at('keys')), /F9 cancel all/);
  session({accepted: 1234});
  assert.match(counts(), /quotes today 1,234 of 4,096$/, 'thousands are parted on both sides of it');
  session({clock: -1501});
  assert.match(counts(), / \u00b7 the venue\u2019s clock is -1\.5 s apart$/);
  session({clock: 1500});
  assert.ok(!counts().includes('apart'));
  session({on: false, since: midday, cause: 'the line is cut'});
  assert.deepEqual([light(), words(head.querySelector('.cause')), counts()], ['\u25cb Venue not connected since 12:00:00 UTC', 'The line is cut. Trying. ', 'Exposure 0 of 60,000,000 (0 %)']);
  assert.ok(document.body.classList.contains('off'));
  session();
  assert.ok(!document.body.classList.contains('off'));
  desk.says({t: 'trader', trader: {...trader, mayAct: false}});
  assert.deepEqual([words(head.querySelector('.who')), seen(at('cancelall'))], ['DLR1 ann (T1), dealer, may look', false]);
  desk.says({t: 'trader', trader});
  assert.ok(seen(at('cancelall')));
});

test('prices as decimals or in 32nds', () => {
  desk.tells([live('R1', 99.5)]);
  assert.match(words(card(0)), /Live 99\.5 \(99-16\)/);
  press(document.body, 'F4');
  assert.deepEqual([words(at('format')), /Live 99-16 \(99\.5\)/.test(words(card(0)))], ['Prices: 32nds', true]);
  at('format').click();
  assert.equal(words(at('format')), 'Prices: decimal');
});

test('the alarm', () => {
  const alarm = at('alarm');
  assert.equal(seen(alarm), false);
  desk.tells([live('R1', 99.5, {quotes: [own(99.5, {state: 'live', valid: midday + 60_000})]}), live('R2', 98, {side: 'sell'}), live('R3', 97, {deadline: clock.at}), request('R4')]);
  session({on: false, since: midday, alarm: 'The venue is lost.'});
  assert.ok(seen(alarm));
  assert.match(words(alarm), /^The venue is lost\. These quotes may still stand at the venue and be hit:/);
  assert.deepEqual([...alarm.querySelectorAll('li')].map(words), ['offer 2,000,000 Alder 4 2034 at 99.5 until 12:01:00 UTC', 'bid 2,000,000 Alder 4 2034 at 98 until 12:02:00 UTC']);
  assert.match(words(alarm), /Withdraw or Cancel all is delivered as soon as the venue is back\. To cancel them now, call the venue\u2019s operator\.$/);
  assert.equal(document.querySelector('.said[role=status]').parentNode, alarm, 'what else is said has a line in it');
  desk.says({t: 'trader', trader: {...trader, mayAct: false}});
  assert.match(words(alarm), /12:02:00 UTCTo cancel them now, call the venue\u2019s operator\.$/, 'who may only look can send no cancel');
  desk.says({t: 'trader', trader});
  clock.skip(60_000);
  assert.equal(alarm.querySelectorAll('li').length, 1, 'a quote whose validity is over is none');
  session();
  assert.deepEqual([seen(alarm), document.querySelector('.said[role=status]').parentNode], [false, at('foot')]);
  gone('R2', 'R3');
});

test('keys', () => {
  document.activeElement.blur();
  press(document.body, 'F2');
  assert.equal(document.activeElement, cards().find(one => one.dataset.state === 'open' && words(one).includes('No live quote')).querySelector('.entry'), 'to the one without a quote');
  assert.ok(!press(document.body, 'F3').defaultPrevented, 'F3 is an investor\u2019s');
  type(document.activeElement, '99');
  press(document.body, 'F9', {repeat: true});
  assert.deepEqual(desk.heard, []);
  press(document.body, 'F9');
  const [sent] = desk.heard;
  assert.deepEqual([sent, document.activeElement.value], [{do: 'cancel all', number: sent.number}, ''], 'what was typed goes, too');
  desk.answers(sent.number, 'No.');
  assert.deepEqual([said(), document.querySelector('.said[role=status]').classList.contains('why')], ['No.', true]);
  clock.pass(8000);
  assert.equal(said(), '');
  at('cancelall').click();
  assert.equal(desk.heard[0].do, 'cancel all');
  document.activeElement.blur();
  boxes.set(at('body'), {left: 0, top: 0, width: 100, height: 20});
  Object.defineProperty(at('body'), 'clientHeight', {value: 100});
  for (const [key, to] of Object.entries({PageDown: 90, PageUp: -90, Home: -1e6, End: 1e6})) {
    press(document.body, key);
    assert.deepEqual(at('body').scrolledBy, [0, to]);
  }
  assert.ok(!press(document.body, 'x').defaultPrevented);
});

test('help', () => {
  press(document.body, '?');
  const help = at('help');
  assert.deepEqual([help.open, words(at('help-title')), document.activeElement.textContent], [true, 'Help for a dealer', 'Close']);
  help.close();
  card(0).querySelector('.entry').focus();
  press(document.activeElement, '?');
  assert.ok(help.open, 'it is a part of no price');
  help.close();
  const filter = at('filter');
  filter.focus();
  press(filter, '?');
  assert.ok(!help.open, 'it may be one of other texts');
});

test('which request is next', () => {
  gone('R1', 'R4');
  desk.tells([request('A', {deadline: clock.at + 50_000}), request('B', {deadline: clock.at + 40_000}), live('C', 99.5, {deadline: clock.at + 30_000}),
    request('D', {deadline: clock.at + 60_000})]);
  document.activeElement.blur();
  const next = () => { press(document.body, 'F2'); return cards().findIndex(one => one.contains(document.activeElement)); };
  const of = id => cards().findIndex(one => one.contains(entries.get(id)));
  const entries = new Map(['A', 'B', 'C', 'D'].map((id, nth) => [id, cards()[nth].querySelector('.entry')]));
  assert.deepEqual([next(), next(), next(), next()], [of('B'), of('A'), of('D'), of('B')], 'those without a quote, round');
  desk.tells([live('A', 99, {deadline: clock.at + 50_000}), live('B', 98, {deadline: clock.at + 40_000}), live('D', 97, {deadline: clock.at + 60_000})]);
  assert.equal(next(), of('C'), 'where none wants one, of those that are open');
  desk.tells(['A', 'B', 'C', 'D'].map(id => request(id, {state: 'passed', ended: clock.at})));
  document.activeElement.blur();
  assert.notEqual(next(), -1, 'where none is open, to one that has ended');
  gone('A', 'B', 'C', 'D');
  press(document.body, 'F2');
  assert.equal(said(), 'No request is open.');
});

test('no card moves under a press', () => {
  const places = () => [...at('cards').children].map(one => one.className === 'place' ? '' : one.querySelector('.what') ? words(one.querySelector('.what')).split(' ')[0] : '-');
  const size = (id, quantity, more = {}) => request(id, {quantity, deadline: clock.at + 600_000, ...more});
  Socket.columns = '100px 100px';
  desk.tells([size('P1', 1), size('P2', 2), size('P3', 3)]);
  assert.deepEqual(places(), ['1', '2', '3']);
  desk.tells([size('P2', 2, {state: 'passed', ended: clock.at})]);
  assert.deepEqual(places(), ['1', '2', '3'], 'what has ended stays for a while');
  const [, second] = at('cards').children;
  assert.equal(second.style.minHeight, '20px', 'as high as it was');
  boxes.set(second, {left: 0, top: 0, width: 100, height: 30});
  desk.tells([size('P2', 2, {state: 'passed', ended: clock.at})]);
  assert.equal(second.style.minHeight, '20px', 'whatever is told of it afterwards');
  boxes.delete(second);
  clock.skip(44_900);
  assert.deepEqual(places(), ['1', '2', '3']);
  clock.pass(200);
  assert.deepEqual(places(), ['1', '', '3'], 'and leaves its place');
  clock.skip(10_000);
  desk.tells([size('P4', 4)]);
  assert.deepEqual(places(), ['1', '4', '3'], 'which a new one takes');
  desk.tells([size('P4', 4, {state: 'passed', ended: clock.at})]);
  button(cards().find(one => one.dataset.state === 'passed'), 'Close').click();
  assert.deepEqual(places(), ['1', '', '3']);
  Socket.columns = '100px';
  clock.pass(1800);
  assert.deepEqual(places(), ['1', '', '3']);
  clock.pass(400);
  assert.deepEqual(places(), ['1', '3'], 'below each other it would be a blank');
  gone('P1', 'P3');
});

test('what is announced', () => {
  clock.pass(2000);
  Notice.all.length = 0;
  desk.tells([request('N1')]);
  assert.deepEqual([Notice.all.map(one => one.title), words(at('alerts-button'))], [['New request \u00b7 DLR1'], 'Alerts: on'], 'once the day so far is told');
  gone('N1');
});

test('a card that has ended makes room where there is none', () => {
  const size = (quantity, more = {}) => request(`S${quantity}`, {quantity, deadline: clock.at + 600_000, ...more});
  const ends = (quantity, ago) => size(quantity, {state: 'passed', ended: clock.at - ago});
  const order = () => [...at('cards').children].map(one => words(one.querySelector('.what')).split(' ')[0]).join('');
  const stands = (node, top) => boxes.set(node, {left: 0, top, width: 100, height: 9});
  desk.tells([size(1), size(2), size(3)]);
  desk.tells([ends(1, 1000), ends(2, 2000)]);
  const [first, second] = at('cards').children;
  boxes.set(at('body'), {left: 0, top: 0, width: 100, height: 10});
  stands(first, 0);
  stands(second, 0);
  desk.tells([size(4)]);
  assert.deepEqual([order(), at('cards').children[1].style.minHeight], ['1432', '9px'], 'the one that ended first, and nothing below it moves up');
  second.focus();
  desk.tells([size(5)]);
  assert.equal(order(), '54321', 'none that has the keys');
  second.blur();
  stands(second, 50);
  desk.tells([size(6)]);
  assert.equal(order(), '543261', 'one that is on the screen');
  stands(first, 50);
  desk.tells([size(7)]);
  assert.equal(order(), '5437612', 'or else the one that ended first');
  boxes.clear();
  gone('S1', 'S2', 'S3', 'S4', 'S5', 'S6', 'S7');
});

test('what tells that somebody is there', () => {
  const told = () => desk.socket.sent.splice(0).filter(one => one.here).length;
  told();
  const acts = {key: () => press(document.body, 'x'), pointerdown: () => document.body.dispatchEvent(new window.Event('pointerdown', {bubbles: true})),
    wheel: () => document.body.dispatchEvent(new window.Event('wheel', {bubbles: true}))};
  for (const [name, act] of Object.entries(acts)) {
    clock.skip(20_000);
    act();
    assert.equal(told(), 1, name);
    act();
    assert.equal(told(), 0, 'not each time');
  }
});

test('a press behind a move does nothing', () => {
  desk.tells([request('G1', {deadline: clock.at + 600_000})]);
  const mine = cards().find(one => one.dataset.state === 'open'), decline = button(mine, 'Decline'), entry = mine.querySelector('.entry');
  clock.pass(600);
  const presses = () => { const event = click(decline); const was = decline.classList.contains('armed'); press(decline, 'Escape'); return [event.defaultPrevented, was]; };
  assert.deepEqual([presses(), told(mine)], [[true, false], 'The page moved under your press: look again.']);
  clock.pass(200);
  assert.deepEqual(presses(), [false, true]);
  boxes.set(decline, {left: 3, top: 3, width: 100, height: 20});
  assert.deepEqual(presses(), [false, true], 'three pixels are none');
  boxes.set(decline, {left: 7, top: 3, width: 100, height: 20});
  assert.deepEqual(presses(), [true, false]);
  clock.pass(800);
  boxes.set(decline, {left: 7, top: 7, width: 100, height: 20});
  assert.deepEqual(presses(), [true, false]);
  clock.pass(800);
  assert.deepEqual(presses(), [false, true]);
  document.activeElement.blur();
  const down = () => { const event = new window.MouseEvent('mousedown', {bubbles: true, cancelable: true}); entry.dispatchEvent(event); return event.defaultPrevented; };
  assert.equal(down(), false);
  boxes.set(entry, {left: 50, top: 50, width: 100, height: 20});
  assert.equal(down(), true, 'a price would be typed for another request');
  entry.focus();
  assert.equal(down(), false);
  assert.deepEqual([press(decline, 'Enter', {repeat: true}).defaultPrevented, press(decline, ' ', {repeat: true}).defaultPrevented, press(decline, 'Enter').defaultPrevented,
    press(decline, 'a', {repeat: true}).defaultPrevented], [true, true, false, false]);
  gone('G1');
});

test('programs', () => {
  const program = {name: 'auto', trader: 'ann', isOn: true, isStopped: false, by: '', since: null}, part = at('programs'); // as the desk tells it
  assert.equal(seen(part), false);
  desk.says({t: 'programs', programs: [program]});
  assert.deepEqual([words(part.querySelector('span')), seen(part)], ['acts with the rights of ann. F9 stops it', true]);
  const {trader: own} = hello();
  desk.says({t: 'trader', trader: {...own, mayAct: false}});
  desk.says({t: 'programs', programs: [program]});
  assert.equal(button(part, 'Stop'), undefined, 'who may only look stops nothing');
  desk.says({t: 'trader', trader: own});
  desk.says({t: 'programs', programs: [program]});
  button(part, 'Stop').click();
  let [sent] = desk.heard;
  assert.deepEqual(sent, {do: 'stop program', name: 'auto', number: sent.number});
  desk.says({t: 'programs', programs: [{...program, isOn: false}]});
  assert.equal(words(part.querySelector('span')), 'not connected');
  desk.says({t: 'programs', programs: [{...program, isStopped: true, by: 'T2', since: midday}]});
  assert.equal(words(part.querySelector('span')), 'stopped by T2, 12:00:00 UTC: it may do nothing until a trader releases it');
  assert.equal(button(part, 'Stop'), undefined);
  const release = button(part, 'Release');
  release.click();
  clock.pass(300);
  release.click();
  [sent] = desk.heard;
  assert.deepEqual(sent, {do: 'release program', name: 'auto', number: sent.number});
  desk.answers(sent.number, 'Not you.');
  assert.equal(said(), 'Not you.');
  desk.says({t: 'programs', programs: [{...program, isStopped: true, by: '', since: midday}]});
  assert.match(words(part), /stopped by the desk,/);
  desk.says({t: 'programs', programs: []});
  assert.equal(seen(part), false);
});

test('limits of the firm', () => {
  const dialog = at('limits'), why = () => words(dialog.querySelector('p[role=status]'));
  const traders = [{login: 'ann', trader: 'T1', mayAct: true, quantity: null, exposure: 5e6, used: 1e6}, {login: 'tom', trader: 'T2', mayAct: false, quantity: 2e6, exposure: null, used: 0}];
  desk.says({t: 'limits', traders});
  at('limits-button').click();
  assert.ok(dialog.open);
  const rows = () => [...dialog.querySelectorAll('tbody')[0].children].map(row => [words(row.children[0]), ...[...row.querySelectorAll('input')].map(one => one.value), words(row.querySelector('.used'))]);
  assert.deepEqual(rows(), [['ann (T1)', '', '5,000,000', '1,000,000'], ['tom (T2), looks only', '2,000,000', '', '0']]);
  const [quantity, exposure] = dialog.querySelectorAll('tbody')[0].children[1].querySelectorAll('input'), set = dialog.querySelector('[aria-label="Set the limits of tom"]');
  quantity.value = '2x';
  set.click();
  assert.deepEqual([why(), desk.heard], ['2x is no quantity: write 2,000,000, 2m or 500k, or nothing for the firm\u2019s own.', []]);
  quantity.value = '';
  exposure.value = '3m';
  desk.says({t: 'limits', traders});
  assert.equal(exposure.value, '3m', 'what somebody types stays');
  press(exposure, 'Enter', {repeat: true});
  assert.deepEqual(desk.heard, []);
  press(exposure, 'Enter');
  let [sent] = desk.heard;
  assert.deepEqual(sent, {do: 'set limits', login: 'tom', quantity: null, exposure: 3e6, number: sent.number});
  desk.answers(sent.number, 'No.');
  assert.deepEqual([why(), exposure.value], ['No.', '3m']);
  set.click();
  desk.answers(desk.heard[0].number);
  assert.deepEqual([why(), exposure.value, rows()[1][2]], ['Set for tom: quantity the firm\u2019s own, exposure 3,000,000.', '3,000,000', '3,000,000']);
  const [reference, distance] = dialog.querySelectorAll('form'), price = dialog.querySelector('[aria-label="Reference price"]'), points = dialog.querySelector('[aria-label="Distance in points"]');
  const submit = form => form.dispatchEvent(new window.Event('submit', {bubbles: true, cancelable: true}));
  submit(reference);
  assert.equal(why(), 'Type a price: 99.515625 or 99-16+.');
  dialog.querySelector('select').value = SECOND;
  price.value = '99.00390625';
  submit(reference);
  [sent] = desk.heard;
  assert.deepEqual([sent, price.value], [{do: 'set reference', bond: SECOND, price: 25345, number: sent.number}, '']);
  desk.answers(sent.number);
  assert.equal(why(), 'The reference of Birch 3 2030 is 99.00390625.');
  desk.says({t: 'references', references: {[BOND]: {price: 99 * 256, at: midday, by: 'tom'}}, distance: 128});
  const row = dialog.querySelectorAll('tbody')[1].children[0];
  assert.deepEqual([[...row.children].slice(0, 4).map(words), points.value], [['Alder 4 2034', '99', '12:00:00', 'tom'], '0.5']);
  const remove = row.querySelector('button');
  remove.focus();
  desk.says({t: 'limits', traders});
  assert.equal(document.activeElement, remove, 'no message comes between the two halves of a press');
  desk.says({t: 'references', references: {[BOND]: {price: 98 * 256, at: midday + 1000, by: 'ann'}, [SECOND]: {price: 1, at: midday, by: 'tom'}}, distance: 128});
  assert.deepEqual([[...row.children].slice(0, 4).map(words), words(row.nextSibling.firstChild)], [['Alder 4 2034', '98', '12:00:01', 'ann'], 'Birch 3 2030']);
  assert.equal(document.activeElement, remove);
  remove.click();
  [sent] = desk.heard;
  assert.deepEqual(sent, {do: 'set reference', bond: BOND, price: null, number: sent.number});
  desk.answers(sent.number);
  assert.equal(why(), 'Alder 4 2034 has no reference any more.');
  const references = more => desk.says({t: 'references', references: {}, ...more});
  type(points, '0.25');
  points.blur();
  references({distance: 128});
  assert.equal(points.value, '0.25', 'what somebody types stays, also where the keys have gone on to the button');
  submit(distance);
  desk.answers(desk.heard[0].number, 'No.');
  assert.deepEqual([why(), points.value], ['No.', '0.25']);
  for (const [typed, value, words_, shown] of [['2', 512, 'A typed word is wanted beyond 2 points.', '2'], ['', null, 'A typed word is wanted beyond one point.', '1']]) {
    points.value = typed;
    submit(distance);
    [sent] = desk.heard;
    assert.deepEqual(sent, {do: 'set distance', distance: value, number: sent.number});
    desk.answers(sent.number);
    assert.equal(why(), words_);
    references({distance: value ?? 256});
    assert.equal(points.value, shown);
  }
  points.value = '0.50';
  submit(distance);
  references({distance: 128});
  assert.equal(points.value, '0.50', 'until the desk has answered somebody types');
  desk.answers(desk.heard[0].number);
  assert.equal(points.value, '0.5', 'what it has taken is written as everybody has it');
  points.value = 'x';
  submit(distance);
  assert.deepEqual([why(), desk.heard], ['x is no distance: write 0.5 or 1, in points, or nothing for one point.', []]);
  dialog.close();
  at('limits-button').click();
  assert.equal(points.value, '0.5', 'opened anew it has what holds');
  dialog.close();
});

test('who leaves is told of live quotes', async () => {
  answers['/logout'] = {};
  desk.tells([live('L1', 99, {deadline: clock.at + 600_000})]);
  const out = () => { at('logout').click(); return desk.socket.isClosed; };
  const words_ = '1 quote stays live and can be hit. Cancel all, or press Log out again to leave.';
  out();
  assert.equal(said(), words_);
  clock.pass(500);
  assert.ok(!out(), 'a double click is one press');
  clock.skip(8001);
  out();
  assert.equal(said(), words_, 'the question stands for a while');
  clock.pass(599);
  assert.ok(!out());
  clock.pass(1);
  out();
  await rest();
  assert.ok(desk.socket.isClosed);
});
