// What is announced to a trader who looks elsewhere, once each, and what a browser plays and shows of it.
import assert from 'node:assert/strict';
import test from 'node:test';
import {clock, document, load, midday, Notice, press, rest, window} from './stand.mjs';
import {asked, dealerHello, investorHello, offered, own, request} from './samples.mjs';

const {Alerts, Choices, kinds} = await load('alerts.js');
const {AlertSwitches} = await load('alert_switches.js');
const {Sounds} = await load('sounds.js');
const {Model} = await load('model.js');

const played = [], went = [];
let model, alerts;
function begin(hello, ...requests) {
  clock.pass(10_000);
  localStorage.clear();
  played.length = went.length = Notice.all.length = 0;
  model = new Model();
  model.take(hello);
  const choices = new Choices();
  for (const kind of Object.keys(kinds)) for (const way of ['sound', 'notification']) choices.set(way, kind, true);
  alerts = new Alerts(model, choices, {play: kind => played.push(kind)}, id => went.push(id));
  alerts.begin();
  take(requests, true);
}
function take(requests, last) {
  model.take({t: 'requests', requests});
  alerts.take(requests, last);
}
const said = () => { clock.pass(2000); played.length = 0; return Notice.all.splice(0).map(one => one.body); };

test('the day so far is no news', () => {
  begin(dealerHello());
  assert.deepEqual(said(), []);
  const late = new Alerts(model, new Choices(), {play: kind => played.push(kind)}, () => {});
  late.begin();
  late.take([request('R1')], false);
  late.take([request('R2')], true);
  assert.deepEqual(said(), []);
});

test('what a dealer is told', () => {
  begin(dealerHello(), request('R0'));
  take([request('R1')]);
  assert.deepEqual(played, ['request']);
  assert.deepEqual(Notice.all.map(one => [one.title, one.body, one.tag, one.silent, one.renotify]), [['New request \u00b7 DLR1', 'OFFER 2,000,000 Alder 4 2034 for INV1', 'DLR1 request', true, true]]);
  said();
  take([request('R1', {quotes: [own(99, {state: 'live'})]}), request('R0', {quantity: 1})]);
  assert.deepEqual(said(), [], 'it is new once, and one\u2019s own quotes are no news');
  take([request('R1', {state: 'done', result: 99 * 256})]);
  assert.deepEqual(said(), ['Sold 2,000,000 Alder 4 2034 at 99 to INV1']);
  take([request('R1', {state: 'done', result: 99 * 256, quantity: 5})]);
  assert.deepEqual(said(), []);
  take([request('R2', {state: 'away'})]);
  assert.deepEqual(said(), [], 'what comes ended is no request');
  take([request('R0', {side: 'sell', state: 'done', result: 98 * 256})]);
  assert.deepEqual(said(), ['Bought 2,000,000 Alder 4 2034 at 98 from INV1']);
});

test('what an investor is told', () => {
  begin(investorHello());
  take([asked('R1'), asked('R2', {trader: 'V2'})]);
  assert.deepEqual(said(), ['BUY 2,000,000 Alder 4 2034 of V2'], 'one\u2019s own is no news');
  take([asked('R1', {quotes: [offered('DLR1', 99), offered('DLR2', 98, {state: 'gone'})]}), asked('R2', {trader: 'V2', quotes: [offered('DLR1', 97)]})]);
  assert.deepEqual(said(), ['DLR1 99: BUY 2,000,000 Alder 4 2034 of V1'], 'a colleague\u2019s quotes are none of one\u2019s own');
  take([asked('R1', {quotes: [offered('DLR1', 99), offered('DLR2', 97)]})]);
  assert.deepEqual(said(), ['DLR2 97: BUY 2,000,000 Alder 4 2034 of V1']);
  take([asked('R1', {state: 'done', award: {dealer: 'DLR2', price: 97 * 256}})]);
  assert.deepEqual(said(), ['Bought 2,000,000 Alder 4 2034 at 97 from DLR2']);
  take([asked('R2', {trader: 'V2', state: 'done', award: {dealer: 'DLR2', price: 97 * 256}})]);
  assert.deepEqual(said(), []);
  begin(investorHello({trader: {...investorHello().trader, mayAct: false}}), asked('R2', {trader: 'V2'}));
  take([asked('R2', {trader: 'V2', side: 'sell', state: 'done', award: {dealer: 'DLR2', price: 97 * 256}})]);
  assert.deepEqual(said(), ['Sold 2,000,000 Alder 4 2034 at 97 to DLR2'], 'who may only look is told of all');
});

test('a deadline that is near', () => {
  begin(dealerHello(), request('R1', {made: clock.at, deadline: clock.at + 120_000}), request('R2', {made: clock.at, deadline: clock.at + 20_000}));
  const [one, two] = [...model.requests.values()];
  const look = (list, left) => { alerts.look(list, list[0].deadline - left); return said(); };
  assert.deepEqual([look([one], 15_001), look([one], 15_000), look([one], 14_000)], [[], ['0:15 left: OFFER 2,000,000 Alder 4 2034 for INV1'], []]);
  assert.deepEqual([look([two], 10_001), look([two], 10_000)], [[], ['0:10 left: OFFER 2,000,000 Alder 4 2034 for INV1']], 'half of a short one');
  begin(dealerHello(), request('R1'));
  assert.deepEqual([look([model.requests.get('R1')], 0), look([request('R9')], 5)], [[], []]);
  take([request('R1', {quantity: 7})]);
  assert.deepEqual(look([model.requests.get('R1')], 5), [], 'once, whatever changes');
  begin(dealerHello(), request('R1'));
  assert.deepEqual(look([model.requests.get('R1')], 1), ['0:01 left: OFFER 2,000,000 Alder 4 2034 for INV1'], 'to its end');
  begin(investorHello(), asked('R2', {trader: 'V2'}));
  assert.deepEqual(look([model.requests.get('R2')], 5000), []);
});

test('a venue that is lost', () => {
  begin(dealerHello(), request('R1', {quotes: [own(99, {state: 'live'})]}), request('R2', {quotes: [own(98, {state: 'live'})]}));
  alerts.look([], clock.at);
  assert.deepEqual(said(), []);
  model.take({...dealerHello().session, on: false});
  alerts.look([], clock.at);
  alerts.look([], clock.at);
  assert.deepEqual(said(), ['The venue is not connected. 2 quotes may still be hit.']);
  model.take(dealerHello().session);
  alerts.look([], clock.at);
  model.take({t: 'requests', requests: [request('R2')]});
  model.take({t: 'down'});
  alerts.look([], clock.at);
  assert.deepEqual(said(), ['The desk does not answer. 1 quote may still be hit.']);
  begin(investorHello());
  alerts.look([], clock.at);
  model.take({...investorHello().session, on: false});
  alerts.look([], clock.at);
  assert.deepEqual(said(), ['The venue is not connected.']);
});

test('what comes soon is announced together', () => {
  begin(dealerHello());
  for (const id of ['R1', 'R2', 'R3']) take([request(id, {quantity: Number(id[1])})]);
  assert.deepEqual(played, ['request']);
  clock.pass(1499);
  assert.deepEqual(played, ['request']);
  clock.pass(1);
  assert.deepEqual([played, Notice.all.at(-1).body], [['request', 'request'], '2 more. The last: OFFER 3 Alder 4 2034 for INV1']);
  take([request('R4', {quantity: 4})]);
  clock.pass(1500);
  assert.equal(Notice.all.at(-1).body, 'OFFER 4 Alder 4 2034 for INV1');
  clock.pass(5000);
  assert.deepEqual([played.length, Notice.all.length], [3, 3]);
});

test('another day is news again', () => {
  begin(dealerHello(), request('R1'));
  model.hello = dealerHello({date: '20261128'});
  alerts.begin();
  take([request('R1')]);
  assert.equal(said().length, 1);
  alerts.begin();
  take([request('R1')]);
  assert.deepEqual(said(), []);
});

test('a notification that is pressed', () => {
  begin(dealerHello());
  take([request('R1')]);
  const [one] = Notice.all;
  one.onclick();
  assert.deepEqual([went, one.isClosed], [['R1'], true]);
  model.take({...dealerHello().session, on: true});
  alerts.look([], clock.at);
  model.take({...dealerHello().session, on: false});
  alerts.look([], clock.at);
  Notice.all.at(-1).onclick();
  assert.deepEqual(went, ['R1'], 'a venue has no card');
  Notice.permission = 'denied';
  take([request('R5')]);
  const count = Notice.all.length;
  clock.pass(2000);
  assert.equal(Notice.all.length, count);
  Notice.permission = 'granted';
  Notice.isRefused = true; // as telephones do
  take([request('R6')]);
  clock.pass(2000);
  Notice.isRefused = false;
  assert.equal(played.at(-1), 'request');
});

test('a trader\u2019s choice is kept', () => {
  localStorage.clear();
  let choices = new Choices();
  assert.deepEqual([[...choices.sound], [...choices.notification]], [[], []]);
  choices.set('sound', 'hit', true);
  choices.set('notification', 'lost', true);
  choices.set('notification', 'hit', true);
  choices.set('notification', 'hit', false);
  choices = new Choices();
  assert.deepEqual([[...choices.sound], [...choices.notification]], [['hit'], ['lost']]);
  for (const kept of ['{', '{"sound": 5}', '{"sound": ["x", "hit"], "notification": null}', 'null']) {
    localStorage.setItem('alerts', kept);
    assert.deepEqual([...new Choices().sound], kept.includes('hit') ? ['hit'] : [], kept);
  }
  const silent = new Alerts(model, new Choices(), {play: kind => played.push(kind)}, () => {});
  localStorage.clear();
  played.length = Notice.all.length = 0;
  new Alerts(model, new Choices(), {play: kind => played.push(kind)}, () => {}).tell('hit', 'x', 'y', 'z');
  assert.deepEqual([played, Notice.all], [[], []]);
  assert.ok(silent);
});

test('the switches', async () => {
  localStorage.clear();
  const heard = [], sounds = {wake: async () => heard.push('wake'), hear: kind => heard.push(kind), canPlay: () => sounds.can, can: true};
  model = new Model();
  model.take(dealerHello());
  const choices = new Choices(), switches = new AlertSwitches(model, choices, sounds);
  document.body.append(switches.node, switches.button);
  const why = () => switches.why.textContent, box = (way, kind) => document.getElementById(`alert-${way}-${kind}`);
  assert.equal(switches.button.textContent, 'Alerts: off');
  switches.button.click();
  assert.deepEqual([switches.node.open, document.activeElement.textContent, switches.rows.get('quote').hidden, switches.rows.get('hit').hidden], [true, 'Close', true, false]);
  switches.rows.get('hit').querySelector('button').click();
  assert.deepEqual(heard.splice(0), ['hit']);
  box('sound', 'hit').click();
  await rest();
  assert.deepEqual([heard.splice(0), [...choices.sound], switches.button.textContent], [['wake'], ['hit'], 'Alerts: on']);
  sounds.can = false;
  switches.draw();
  assert.deepEqual([switches.button.textContent, switches.button.classList.contains('why')], ['Alerts: silent', true]);
  box('sound', 'hit').click();
  await rest();
  assert.deepEqual([heard, [...choices.sound], switches.button.textContent], [[], [], 'Alerts: off']);
  Notice.permission = 'default';
  Notice.answer = 'denied';
  box('notification', 'lost').click();
  await rest();
  assert.deepEqual([box('notification', 'lost').checked, [...choices.notification]], [false, []]);
  assert.match(why(), /^The browser blocks notifications/);
  Notice.answer = 'granted';
  box('notification', 'lost').click();
  await rest();
  assert.deepEqual([box('notification', 'lost').checked, [...choices.notification], switches.button.textContent], [true, ['lost'], 'Alerts: on']);
  switches.open();
  assert.equal(why(), '');
  Notice.permission = 'denied';
  switches.open();
  assert.match(why(), /^The browser blocks/);
  model.take(investorHello());
  switches.open();
  assert.equal(switches.rows.get('quote').hidden, false);
  Notice.permission = 'granted';
});

test('a tone is played once somebody has pressed something', async () => {
  const made = [], contexts = [];
  class Part { constructor(context, more) { made.push(Object.assign(this, more)); this.steps = []; }
    connect(to) { this.to = to; return to; }
    start(at) { this.from = at; }
    stop(at) { this.until = at; } }
  class Gain extends Part { gain = {setValueAtTime: (...to) => this.steps.push(to), linearRampToValueAtTime: (...to) => this.steps.push(to)}; }
  Object.assign(globalThis, {OscillatorNode: Part, GainNode: Gain, AudioContext: class {
    constructor() { contexts.push(this); }
    state = 'suspended';
    currentTime = 10;
    destination = 'out';
    async resume() { this.state = 'running'; this.onstatechange?.(); } }});
  Object.defineProperty(globalThis, 'navigator', {value: {userActivation: {hasBeenActive: false}}, configurable: true});
  let isWanted = false, changes = 0;
  const sounds = new Sounds(() => isWanted, () => { changes += 1; });
  const pressed = async () => { press(document.body, 'a'); await rest(); };
  await pressed();
  sounds.play('quote');
  isWanted = true;
  await pressed();
  assert.deepEqual([contexts.length, made.length, sounds.canPlay()], [0, 0, false], 'such as Escape is no press');
  navigator.userActivation.hasBeenActive = true;
  await pressed();
  await pressed();
  assert.deepEqual([contexts.length, changes, sounds.canPlay()], [1, 1, true]);
  await sounds.hear('quote');
  const [tone, volume] = made;
  assert.deepEqual([tone.frequency, tone.from, tone.until, tone.to === volume, volume.to], [1320, 10, 10.09, true, 'out']);
  assert.deepEqual(volume.steps, [[0, 10], [0.25, 10.01], [0.25, 10.08], [0, 10.09]]);
  made.length = 0;
  sounds.play('hit');
  assert.deepEqual(made.filter(one => one.frequency).map(one => one.frequency), [660, 825, 990]);
  const heard = kind => { made.length = 0; sounds.play(kind); return made.filter(one => one.frequency); };
  const all = Object.keys(kinds).map(heard);
  assert.ok(all.every(tones => tones.length && tones.every((tone, nth) => tone.from >= (tones[nth - 1]?.until ?? 10) && tone.until > tone.from)), 'each kind has its tones, one behind the other');
  assert.equal(new Set(all.map(tones => tones.map(tone => `${tone.frequency} ${tone.from}`).join())).size, 5, 'no two kinds sound alike');
  const [high, low] = heard('lost');
  assert.ok(low.frequency < high.frequency, 'what is lost falls');
  isWanted = false;
  contexts[0].state = 'suspended';
  await pressed();
  assert.equal(sounds.canPlay(), false, 'nobody has switched a sound on');
});
