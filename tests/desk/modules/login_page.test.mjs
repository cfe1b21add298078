// A page of nobody who is logged in: why the login is asked for, what comes behind it, and a page that is locked.
import assert from 'node:assert/strict';
import test from 'node:test';
import {answers, asked, clock, document, load, press, rest, Socket, window, words} from './stand.mjs';
import {dealerHello, request} from './samples.mjs';
import {at, card, desk, seen} from './whole.mjs';

const locked = 'Locked: nobody was at this page for 15 minutes.';
sessionStorage.setItem('why', locked);
await load('main.js');
const form = () => document.querySelector('form.login');
const light = () => words(at('top').querySelector('.light'));

test('a page of nobody', () => {
  assert.deepEqual([words(form().querySelector('.why')), form().nextSibling === at('body'), document.activeElement === at('login'), seen(at('body'))], [locked, true, true, false]);
  assert.deepEqual([light(), document.title, Socket.all.length], ['Not logged in', 'Desk', 0]);
  assert.deepEqual([...at('top').querySelectorAll('button')].filter(seen), [], 'nothing can be done');
  assert.deepEqual([document.body.classList.contains('off'), seen(at('alarm')), seen(at('table'))], [false, false, false], 'of a venue nothing is known');
  for (const key of ['?', 'F8']) assert.equal(press(document.body, key).defaultPrevented, false, key);
});

test('who logs in has the page', async () => {
  answers['/login'] = {json: async () => ({token: 'secret'})};
  at('login').value = 'ann';
  at('password').value = 'word';
  form().dispatchEvent(new window.Event('submit', {bubbles: true, cancelable: true}));
  await rest();
  assert.deepEqual([asked.at(-1), localStorage.getItem('token'), Socket.all.length], [{path: '/login', body: {login: 'ann', password: 'word'}}, 'secret', 1]);
  Socket.last.onopen();
  assert.deepEqual(Socket.last.sent, [{token: 'secret'}]);
  desk.says(dealerHello({locksAfter: 15}));
  desk.says(dealerHello().session);
  desk.tells([request('R1')], true);
  assert.deepEqual([form(), seen(at('body')), seen(at('ticket')), document.body.className, light()], [null, true, false, 'dealer', '\u25cf Venue connected']);
  assert.deepEqual([document.title, document.activeElement === card(0).querySelector('.entry')], ['(1) DLR1 desk', true], 'the keys go where the work begins');
});

test('a page that nobody used is locked', async () => {
  press(document.body, 'x');
  clock.skip(15 * 60_000);
  Socket.last.onclose({code: 1008});
  await rest();
  assert.deepEqual([sessionStorage.getItem('why'), localStorage.getItem('token'), location.reloads], [locked, null, 1]);
});
