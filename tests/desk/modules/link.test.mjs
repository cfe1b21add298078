// The connection to the desk: what is sent, who hears an answer, and what a lost one means.
import assert from 'node:assert/strict';
import test from 'node:test';
import {answers, asked, clock, load, midday, rest, Socket} from './stand.mjs';

const {Link, unsent} = await load('link.js');
const heard = [];
let link;
const kinds = () => heard.splice(0).map(message => message.t);
const says = message => Socket.last.onmessage({data: JSON.stringify(message)});
const isServed = is => { if (is) answers['/icon.svg'] = {ok: true}; else delete answers['/icon.svg']; };
const ends = async (code = 1006) => { Socket.last.onclose({code}); await rest(); };

function begin(opened = true) {
  localStorage.setItem('token', 'secret');
  clock.timers.clear();
  heard.length = Socket.all.length = 0;
  isServed(true);
  link = new Link(message => heard.push(message));
  link.connect();
  if (opened) Socket.last.onopen();
}

test('who is logged in connects', () => {
  begin();
  assert.deepEqual([Socket.last.address, Socket.last.sent, link.isUp], ['ws://desk.example:8443/socket', [{token: 'secret'}], false]);
  says({t: 'hello', now: midday});
  assert.deepEqual([kinds(), link.isUp], [['hello'], true]);
  localStorage.removeItem('token');
  new Link(message => heard.push(message)).connect();
  assert.deepEqual([kinds(), Socket.all.length], [['login'], 1]);
  location.protocol = 'https:';
  begin();
  assert.equal(Socket.last.address, 'wss://desk.example:8443/socket');
  location.protocol = 'http:';
});

test('an act and its answer', () => {
  begin();
  const told = [];
  link.act({do: 'x'}, why => told.push(why));
  assert.deepEqual([told.splice(0), Socket.last.sent.length], [[unsent], 1], 'nothing is kept for later');
  says({t: 'hello'});
  link.act({do: 'x'}, why => told.push(['x', why]));
  link.act({do: 'y'}, why => told.push(['y', why]));
  link.act({do: 'z'});
  assert.deepEqual(Socket.last.sent.slice(1), [{do: 'x', number: 1}, {do: 'y', number: 2}, {do: 'z', number: 3}]);
  says({t: 'said', number: 2, why: 'no'});
  says({t: 'said', number: 2, why: 'again'});
  says({t: 'said', number: 3, why: ''});
  says({t: 'said', number: 1, why: ''});
  assert.deepEqual([told, kinds()], [[['y', 'no'], ['x', '']], ['hello']]);
});

test('a question and the parts of its answer', () => {
  begin();
  const told = [];
  link.ask({do: 'find'}, answer => told.push(answer.why));
  assert.deepEqual(told.splice(0), ['No connection to the desk.']);
  says({t: 'hello'});
  link.ask({do: 'find'}, answer => told.push(answer.part));
  says({number: 1, part: 1, last: false});
  says({number: 1, part: 2, last: true});
  says({number: 1, part: 3, t: 'said'});
  link.ask({do: 'price'}, answer => told.push(answer.part));
  says({number: 2, part: 4});
  says({number: 2, part: 5, t: 'said'});
  assert.deepEqual(told, [1, 2, 4]);
});

test('what time it is at the desk', () => {
  begin();
  const skews = [['hello', -300, -300], ['time', -400, -300], ['time', -100, -100], ['time', -2100, -100], ['time', -2101, -2101], ['hello', -5000, -5000], ['hello', 7, 7], ['hello', 0, 0]];
  for (const [t, is, expected] of skews) {
    says({t, now: clock.at + is});
    assert.equal(link.now() - clock.at, expected, `${t} ${is}`);
  }
  says({t: 'time'});
  assert.equal(link.now(), clock.at);
});

test('a desk that goes and comes back', async () => {
  begin();
  says({t: 'hello'});
  const told = [];
  link.act({do: 'x'}, why => told.push(why));
  link.ask({do: 'y'}, answer => told.push(answer.why));
  await ends();
  assert.deepEqual(told, ['The desk did not answer. Look at the state when it is back: nothing is sent twice.', 'The desk did not answer.']);
  assert.deepEqual([kinds(), link.isUp, Socket.all.length], [['hello', 'down'], false, 1]);
  clock.pass(999);
  assert.equal(Socket.all.length, 1);
  clock.pass(1);
  assert.equal(Socket.all.length, 2);
  await ends();
  assert.equal(told.length, 2, 'nobody is told twice');
});

test('a desk that refuses the handshake twice', async () => {
  begin(false);
  await ends();
  assert.deepEqual(kinds(), ['down'], 'one that came back meanwhile has refused nothing');
  clock.pass(1000);
  await ends();
  assert.deepEqual([kinds(), localStorage.getItem('token'), link.takeReason()], [['login'], null, '']);
  begin(false);
  await ends();
  clock.pass(1000);
  isServed(false);
  await ends();
  isServed(true);
  clock.pass(1000);
  await ends();
  assert.deepEqual(kinds(), ['down', 'down', 'down'], 'it was down in between');
  begin(false);
  await ends();
  clock.pass(1000);
  Socket.last.onopen();
  await ends();
  assert.deepEqual(kinds(), ['down', 'down'], 'it took the second one');
  begin(false);
  await ends();
  clock.pass(1000);
  Socket.last.onopen();
  says({t: 'hello'});
  await ends();
  clock.pass(1000);
  await ends();
  assert.deepEqual(kinds(), ['down', 'hello', 'down', 'down']);
});

test('a login that is over', async () => {
  begin();
  says({t: 'hello'});
  await ends(1008);
  assert.deepEqual([kinds(), localStorage.getItem('token'), link.takeReason()], [['hello', 'login'], null, '']);
});

test('a page that is closed comes back by nobody', async () => {
  begin();
  says({t: 'closed', why: 'Another page was opened.'});
  await ends();
  clock.pass(60_000);
  assert.deepEqual([kinds(), Socket.all.length, link.whyClosed], [['closed'], 1, 'Another page was opened.']);
});

test('somebody is there', async () => {
  begin();
  link.alive();
  assert.equal(Socket.last.sent.length, 1, 'there is no desk yet');
  says({t: 'hello'});
  const here = () => Socket.last.sent.filter(one => one.here).length;
  link.alive();
  clock.pass(19_999);
  link.alive();
  assert.equal(here(), 1);
  clock.pass(1);
  link.alive();
  assert.equal(here(), 2);
  for (const [minutes, word] of [[1, 'minute'], [5, 'minutes']]) {
    begin();
    link.locksAfter = minutes;
    says({t: 'hello'});
    link.alive();
    clock.pass(minutes * 60_000 - 20_000 - 1);
    assert.equal(link.isLeft(), false);
    clock.pass(1);
    await ends(1008);
    assert.equal(link.takeReason(), `Locked: nobody was at this page for ${minutes} ${word}.`);
    assert.equal(link.takeReason(), '', 'once');
  }
  begin();
  link.locksAfter = 0;
  clock.pass(1e9);
  assert.equal(link.isLeft(), false, 'the firm sets no time');
});

test('a login', async () => {
  begin();
  localStorage.removeItem('token');
  asked.length = 0;
  assert.equal(await link.logIn('ann', 'word'), 'The desk does not answer.');
  answers['/login'] = {json: async () => ({why: 'Wrong.'})};
  assert.deepEqual([await link.logIn('ann', 'word'), localStorage.getItem('token')], ['Wrong.', null]);
  assert.deepEqual(asked.at(-1), {path: '/login', body: {login: 'ann', password: 'word'}});
  answers['/login'] = {json: async () => ({token: 'new'})};
  const before = Socket.all.length;
  assert.deepEqual([await link.logIn('ann', 'word'), localStorage.getItem('token'), Socket.all.length], ['', 'new', before + 1]);
});

test('a logout', async () => {
  begin();
  asked.length = 0;
  answers['/logout'] = {};
  await link.logOut();
  assert.deepEqual([asked, Socket.last.isClosed, kinds(), localStorage.getItem('token')], [[{path: '/logout', body: {token: 'secret'}}], true, ['login'], null]);
  begin();
  delete answers['/logout'];
  await assert.rejects(link.logOut());
  assert.deepEqual([Socket.last.isClosed, localStorage.getItem('token')], [true, null], 'this browser forgets it all the same');
});
