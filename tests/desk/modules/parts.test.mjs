// Parts of the page by themselves: the login, what is out of sight, what the desk works out of a price, and claims.
import assert from 'node:assert/strict';
import test from 'node:test';
import {boxes, button, clock, document, isSeen, load, midday, press, rest, type, window, words} from './stand.mjs';
import {SECOND, dealerHello, own, request} from './samples.mjs';

const {Login} = await load('login.js');
const {Elsewhere} = await load('elsewhere.js');
const {WorkedOut} = await load('worked_out.js');
const {DealerCard} = await load('dealer_card.js');
const {Model} = await load('model.js');
const {Sorting} = await load('sorting.js');
const dom = await load('dom.js');

test('a login', async () => {
  const login = new Login(), said = () => words(login.why), form = login.node, answer = {};
  document.body.append(form);
  assert.equal(words(form.querySelector('h1')), 'Mireseason desk');
  login.say('Locked.');
  login.say('');
  assert.equal(said(), 'Locked.');
  const link = {logIn: (...typed) => { answer.of = typed; return new Promise(resolve => { answer.with = resolve; }); }};
  const other = new Login(link);
  form.replaceWith(other.node);
  other.focus();
  assert.equal(document.activeElement, other.login);
  other.login.value = 'ann';
  const send = () => { other.password.value = 'word'; return other.node.dispatchEvent(new window.Event('submit', {cancelable: true})); };
  other.say('Locked.');
  assert.equal(send(), false, 'the browser goes nowhere');
  assert.deepEqual([words(other.button), other.button.disabled, words(other.why), answer.of], ['Logging in \u2026', true, '', ['ann', 'word']]);
  answer.with('Wrong.');
  await rest();
  assert.deepEqual([words(other.button), other.button.disabled, words(other.why), other.password.value, document.activeElement], ['Log in', false, 'Wrong.', '', other.password]);
  other.login.focus();
  send();
  answer.with('');
  await rest();
  assert.deepEqual([words(other.why), document.activeElement], ['', other.login]);
  other.knows('DLR1');
  assert.equal(words(new Login(link).node.querySelector('h1')), 'Desk of DLR1');
  other.node.remove();
});

test('requests that are not on the screen', () => {
  const node = document.createElement('nav'), elsewhere = new Elsewhere(node);
  document.body.append(node);
  boxes.set(document.getElementById('body'), {left: 0, top: 0, width: 100, height: 100});
  const went = [];
  const card = (name, deadline, made, top, more = {}) => {
    const own_ = document.createElement('article');
    own_.setAttribute('aria-label', name);
    boxes.set(own_, {left: 0, top, width: 100, height: 20});
    return {node: own_, request: {deadline: midday + deadline, made: midday - made}, is: () => true, wants: () => true, focus: () => went.push(name), ...more};
  };
  const draw = (...cards) => { elsewhere.draw(cards, midday); return node.hidden ? [] : [...node.querySelectorAll('button')].filter(one => !one.hidden).map(words); };
  assert.deepEqual([draw(card('a', 60_000, 1, 0), card('b', 60_000, 1, 89)), node.hidden], [[], true], 'a card whose middle is seen is on the screen');
  assert.deepEqual(draw(card('a', 60_000, 90_000, 90)), ['Ends next: a 1:00']);
  assert.equal(words(elsewhere.count), '1 open request is not on the screen');
  assert.deepEqual(draw(card('a', 60_000, 90_000, -10), card('b', 30_000, 59_999, 200), card('c', 90_000, 70_000, 200)), ['Ends next: b 0:30']);
  assert.equal(words(elsewhere.count), '3 open requests are not on the screen');
  assert.deepEqual(draw(card('a', 60_000, 90_000, 200), card('b', 90_000, 59_999, 200)), ['Ends next: a 1:00', 'New: b 1:30']);
  assert.deepEqual(draw(card('a', 60_000, 90_000, 200), card('b', 90_000, 60_000, 200)), ['Ends next: a 1:00'], 'a minute is no news');
  assert.deepEqual(draw(card('a', 10_000, 90_000, 200, {wants: () => false}), card('b', 90_000, 90_000, 200)), ['Ends next: b 1:30'], 'first what waits for somebody');
  assert.deepEqual(draw(card('a', 10_000, 90_000, 200, {is: () => false}), card('b', 90_000, 90_000, 200, {wants: () => false})), ['Ends next: b 1:30']);
  node.querySelector('button').click();
  assert.deepEqual(went, ['b']);
  boxes.clear();
});

test('what follows from a price is asked once the keys rest', () => {
  const asked = [], heard = [], link = {ask: (question, hear) => asked.push({question, hear})};
  const worked = new WorkedOut(link, {id: SECOND}, () => heard.push('changed'));
  assert.equal(worked.of({price: 1}, 5), null);
  clock.pass(149);
  assert.equal(worked.of({price: 2}, 5), null);
  clock.pass(149);
  assert.deepEqual(asked, []);
  clock.pass(1);
  assert.deepEqual(asked.map(one => one.question), [{do: 'price', bond: SECOND, quantity: 5, price: 2}]);
  assert.equal(worked.of({price: 2}, 5), null, 'it is asked once');
  clock.pass(1000);
  asked[0].hear({yield: 4});
  assert.deepEqual([worked.of({price: 2}, 5), heard, asked.length], [{yield: 4}, ['changed'], 1]);
  worked.of({price: 2}, 6);
  clock.pass(150);
  worked.of({price: 3}, 6);
  clock.pass(150);
  asked[1].hear({yield: 5});
  assert.deepEqual([worked.of({price: 3}, 6), heard.length], [null, 1], 'an answer to what was typed before is none');
});

function dealerCard(hello, one) {
  const model = new Model(), sent = [], asked = [];
  model.take(hello);
  model.take({t: 'requests', requests: [one]});
  const link = {now: () => clock.at, act: command => sent.push(command), ask: (question, hear) => asked.push({question, hear})};
  const card = new DealerCard(one, {model, link, close() {}, paper() {}});
  document.body.append(card.node);
  card.update(one);
  return {card, sent, asked, entry: card.entry, echo: () => words(card.echo), told: () => words(card.text)};
}

test('a yield becomes the nearest price', () => {
  const {card, sent, asked, entry, echo} = dealerCard(dealerHello(), request('R1', {bond: SECOND}));
  type(entry, '4.25%');
  assert.equal(echo(), 'The price of 4.25 % \u2026');
  press(entry, 'Enter');
  assert.deepEqual([entry.value, sent], ['4.25%', []], 'it is not known yet');
  clock.pass(150);
  assert.deepEqual(asked[0].question, {do: 'price', bond: SECOND, quantity: 2e6, yield: 4.25});
  asked[0].hear({price: 99.5 * 256, yield: 4.249});
  assert.equal(echo(), '4.25 %: the nearest price is 99.5 (99-16), which yields 4.249 %. Enter takes it, and sends nothing.');
  assert.ok(!card.echo.classList.contains('why'));
  press(entry, 'Enter');
  assert.deepEqual([entry.value, sent], ['99.5', []]);
  clock.pass(150);
  asked[1].hear({yield: 4.249, amounts: {total: 1e6}, currency: 'EUR'});
  assert.equal(echo(), '= 99-16, yields 4.249 %, the buyer pays 1,000,000.00 EUR');
  type(entry, '50%');
  clock.pass(150);
  asked[2].hear({why: 'No price has it.'});
  assert.equal(echo(), 'No price has it.');
  const plain = dealerCard(dealerHello(), request('R2'));
  type(plain.entry, '4.25%');
  assert.equal(plain.echo(), 'This desk has no data of the bond: type a price.');
  type(plain.entry, '99.5');
  clock.pass(150);
  assert.deepEqual([plain.echo(), plain.asked], ['= 99-16', []]);
});

test('a price outside the band, and one at each end', () => {
  const hello = dealerHello(), bond = {id: SECOND, name: 'Birch', grid: 32, low: 99 * 256, high: 101 * 256};
  const {sent, entry, echo, card} = dealerCard({...hello, market: {...hello.market, bonds: [bond]}}, request('R1', {bond: SECOND}));
  assert.equal(echo(), 'steps of 1/32 from 99 to 101');
  for (const price of ['98.96875', '101.03125']) {
    type(entry, price);
    assert.equal(echo(), 'Outside the bond\u2019s band: 99 to 101.');
    assert.ok(card.echo.classList.contains('why'));
    press(entry, 'Enter');
    clock.pass(1000);
    press(entry, 'Enter');
  }
  assert.deepEqual([entry.value, sent], ['101.03125', []]);
  press(entry, 'ArrowDown');
  assert.deepEqual([entry.value, echo()], ['101', '= 101-00']);
  for (const price of ['99', '101']) {
    type(entry, price);
    press(entry, 'Enter');
    clock.pass(1000);
    press(entry, 'Enter');
  }
  assert.deepEqual(sent.map(one => one.price), [99 * 256, 101 * 256]);
});

test('whose a request is', () => {
  const claimed = (login, trader) => ({claimed: {login, trader, at: midday}});
  const of = (more = {}, hello = {}) => dealerCard(dealerHello(hello), request('R1', {quotes: [own(99.5)], ...more}));
  const shown = ({card}) => [...['Claim', 'Release', 'Hand over'].filter(name => button(card.node, name)), ...(isSeen(card.claim.whom) ? ['to'] : [])];
  const free = of();
  assert.deepEqual(shown(free), ['Claim']);
  button(free.card.node, 'Claim').click();
  assert.deepEqual(free.sent, [{do: 'claim', request: 'R1'}]);
  assert.deepEqual(shown(of({}, {traders: [{login: 'ann', trader: 'T1'}]})), [], 'to nobody one need tell it');
  assert.deepEqual(shown(of({declined: true, ...claimed('ann', 'T1')})), []);
  const mine = of(claimed('ann', 'T1'));
  assert.deepEqual([shown(mine), words(mine.card.claim.words), words(mine.card.claim.whom)], [['Release', 'Hand over', 'to'], 'Yours, 12:00 UTC', 'to tom (T2)']);
  button(mine.card.node, 'Hand over').click();
  button(mine.card.node, 'Release').click();
  assert.deepEqual(mine.sent, [{do: 'hand over', to: 'tom', request: 'R1'}, {do: 'release', request: 'R1'}]);
  type(mine.entry, '99.5');
  press(mine.entry, 'Enter');
  assert.equal(mine.sent.length, 3, 'one\u2019s own asks nothing more');
  const theirs = of(claimed('tom', 'T2'));
  assert.deepEqual([shown(theirs), words(theirs.card.claim.words)], [['Release'], 'tom (T2) has claimed this request, 12:00 UTC']);
  type(theirs.entry, '99.5');
  press(theirs.entry, 'Enter');
  assert.deepEqual([theirs.told(), theirs.sent], ['tom (T2) has claimed this request: Enter again if it is meant.', []]);
  button(theirs.card.node, 'Decline').click();
  assert.equal(theirs.told(), 'tom (T2) has claimed this request.');
  clock.pass(600);
  press(theirs.entry, 'Enter');
  assert.equal(theirs.sent[0].do, 'quote', 'nobody is kept from it');
});

test('rows of which some have no value', () => {
  const column = {name: 'Size', of: row => row, isNumber: true}, sorting = new Sorting([column], () => {});
  const sorted = () => sorting.sort([1, 0, 3, null, 2]);
  assert.deepEqual(sorted(), [1, 0, 3, null, 2], 'in their own order');
  sorting.press(column);
  assert.deepEqual(sorted(), [3, 2, 1, 0, null]);
  sorting.press(column);
  assert.deepEqual(sorted(), [1, 2, 3, 0, null], 'either way what has none stands last');
});

test('what stands right is not touched', () => {
  const parent = document.createElement('div'), [a, b, c, d] = 'abcd'.split('').map(text => dom.h('button', {}, text));
  document.body.append(parent);
  parent.append(a, b, c);
  b.focus();
  const moved = [];
  const insert = parent.insertBefore.bind(parent);
  parent.insertBefore = (node, behind) => { moved.push(node.textContent); return insert(node, behind); };
  dom.arrange(parent, [a, b, c]);
  assert.deepEqual([moved, document.activeElement], [[], b]);
  dom.arrange(parent, [a, d, b]);
  assert.deepEqual([words(parent), moved.splice(0), document.activeElement], ['adb', ['d'], b]);
  dom.arrange(parent, [b, a, d]);
  assert.deepEqual([words(parent), document.activeElement], ['bad', b], 'the focus stays');
  const node = dom.h('p', {className: 'x', 'data-a': '1', onclick: () => moved.push('click')}, 'text');
  node.click();
  assert.deepEqual([node.className, node.dataset.a, moved.at(-1)], ['x', '1', 'click']);
  dom.set(node, 'at 99-16+, or 1-2');
  assert.deepEqual([...node.querySelectorAll('.whole')].map(words), ['99-16+'], 'a price in 32nds is not broken');
  const {firstChild} = node;
  dom.set(node, 'at 99-16+, or 1-2');
  assert.equal(node.firstChild, firstChild);
  dom.set(node, 'plain');
  assert.equal(node.innerHTML, 'plain');
  const field = dom.h('input'), form = dom.h('div', {tabIndex: -1}, field);
  document.body.append(form);
  field.focus();
  dom.keepFocus(form, () => {});
  assert.equal(document.activeElement, field);
  dom.keepFocus(form, () => { field.hidden = true; });
  assert.equal(document.activeElement, form, 'what can\u2019t be pressed any more loses the keys to its card');
});
