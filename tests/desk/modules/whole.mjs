// The whole page, with a desk that a test plays.
import {clock, document, load, Socket, words} from './stand.mjs';

export const desk = {
  // Opens the page of somebody who is logged in.
  async open(hello, ...requests) {
    localStorage.setItem('token', 'secret');
    await load('main.js');
    Socket.last.onopen();
    this.says(hello);
    this.says(hello.session);
    this.tells(requests, true);
  },
  get socket() { return Socket.last; },
  says(message) { this.socket.onmessage({data: JSON.stringify({now: clock.at, ...message})}); },
  tells(requests, last) { this.says({t: 'requests', requests, ...(last ? {last} : {})}); },
  // What the page has sent since this was last asked, without the words that somebody is there.
  get heard() { return this.socket.sent.splice(0).filter(one => !one.here && !one.token); },
  // Answers what the page asked last: an empty text where it was done.
  answers(number, why = '') { this.says({t: 'said', number, why}); },
};

export const at = id => document.getElementById(id);
export const cards = () => [...at('cards').querySelectorAll('article.card')];
export const card = nth => cards()[nth];
export const told = (of = card(0)) => words(of.querySelector('p.told'));
export const seen = node => node.checkVisibility();
export const minute = 60_000;
