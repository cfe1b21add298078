// Announces news to a trader who looks elsewhere, by a sound and by a notification of the desktop. The trader switches
// each of the two on for each kind of news, and the browser keeps the choice.
import {amount, span} from './amounts.js';
import {hasTraded, isOpen, liveQuote} from './model.js';
import {text} from './price.js';
import {termsOf} from './news.js';

export const kinds = {request: 'New request', quote: 'Quote', hit: 'Trade', deadline: 'Deadline near', lost: 'Venue lost'};

const key = 'alerts';
const gap = 1500;    // milliseconds: what comes so soon behind one of its kind is announced together with what follows
const soon = 15_000; // before its end a request that waits is announced

// What the trader has switched on: {sound: {KIND: true}, notification: {KIND: true}}.
export class Choices {
  constructor() {
    const kept = read();
    this.sound = new Set(kept.sound);
    this.notification = new Set(kept.notification);
  }
  set(way, kind, is) {
    if (is) this[way].add(kind);
    else this[way].delete(kind);
    localStorage.setItem(key, JSON.stringify({sound: [...this.sound], notification: [...this.notification]}));
  }
}

function read() {
  try {
    const {sound, notification} = JSON.parse(localStorage.getItem(key)) ?? {};
    const known = list => Array.isArray(list) ? list.filter(kind => kind in kinds) : [];
    return {sound: known(sound), notification: known(notification)};
  } catch {
    return {sound: [], notification: []}; // what something else has written there
  }
}

// Finds the news in what the desk tells, and announces each once.
export class Alerts {
  // sounds.play(kind); go(request id) leads to the card of a request, where a notification is pressed.
  constructor(model, choices, sounds, go) {
    this.model = model;
    this.choices = choices;
    this.sounds = sounds;
    this.go = go;
    this.seen = new Map(); // by request: {quotes, isDone, hasEnding}
    this.date = '';
    this.isTold = false; // the day so far, none of which is news
    this.wasOn = false;
    this.held = new Map(); // by kind: {count, words, id, until}
  }
  begin() {
    if (this.date !== this.model.hello.date) this.seen.clear();
    this.date = this.model.hello.date;
  }
  // Requests that are new, or have changed; of a page that opens all of the day, in parts.
  take(requests, isLast) {
    for (const request of requests) {
      const before = this.seen.get(request.id), now = this.stateOf(request, before);
      this.seen.set(request.id, now);
      if (this.isTold) this.compare(request, before ?? {quotes: new Set(), isNew: true}, now);
    }
    this.isTold ||= Boolean(isLast);
  }
  stateOf(request, before) {
    const quotes = this.model.isDealer() ? [] : request.quotes.filter(one => one.state === 'live').map(one => one.id);
    return {quotes: new Set(quotes), isDone: hasTraded(request), hasEnding: before?.hasEnding ?? false};
  }
  compare(request, before, now) {
    const isDealer = this.model.isDealer(), {trader} = this.model.hello;
    if (before.isNew && isOpen(request) && (isDealer || request.trader !== trader.name)) {
      this.announce('request', termsOf(request, this.model), request.id);
    }
    if (!this.concerns(request)) return;
    const fresh = request.quotes.filter(one => now.quotes.has(one.id) && !before.quotes.has(one.id));
    for (const quote of fresh) this.announce('quote', `${quote.dealer} ${text(quote.price)}: ${termsOf(request, this.model)}`, request.id);
    if (now.isDone && !before.isDone) this.announce('hit', this.tradeWords(request), request.id);
  }
  // Of an investor's desk a trader's own requests; of a dealer's all, and so of one who may only look.
  concerns(request) {
    return this.model.isDealer() || !this.model.mayAct() || request.trader === this.model.hello.trader.name;
  }
  tradeWords(request) {
    const isDealer = this.model.isDealer(), isBuy = (request.side === 'buy') !== isDealer;
    const price = isDealer ? request.result : request.award.price, whom = isDealer ? request.investor : request.award.dealer;
    return `${isBuy ? 'Bought' : 'Sold'} ${amount(request.quantity)} ${this.model.bond(request.bond).name} at ${text(price)} ` +
      `${isBuy ? 'from' : 'to'} ${whom}`;
  }
  // Whether the venue is there, and which of the requests that wait for somebody end soon.
  look(waiting, moment) {
    this.release();
    const isOn = this.model.isOn();
    if (this.wasOn && !isOn) this.announce('lost', this.lostWords(), null);
    this.wasOn = isOn;
    for (const request of waiting) {
      const seen = this.seen.get(request.id), left = request.deadline - moment;
      if (!seen || seen.hasEnding || left > Math.min(soon, (request.deadline - request.made) / 2)) continue;
      seen.hasEnding = true;
      if (left > 0 && this.concerns(request)) this.announce('deadline', `${span(left)} left: ${termsOf(request, this.model)}`, request.id);
    }
  }
  lostWords() {
    const live = this.model.isDealer() ? [...this.model.requests.values()].filter(liveQuote).length : 0;
    return `${this.model.isLinked ? 'The venue is not connected.' : 'The desk does not answer.'}` +
      `${live ? ` ${live} ${live === 1 ? 'quote' : 'quotes'} may still be hit.` : ''}`;
  }
  // The first of a kind at once; what follows within the gap together, so that nobody can flood the desktop.
  announce(kind, words, id) {
    const held = this.held.get(kind);
    if (held) return Object.assign(held, {count: held.count + 1, words, id});
    this.held.set(kind, {count: 0, words, id, until: performance.now() + gap});
    setTimeout(() => this.release(), gap); // of a page that nobody looks at, the desk's next word does
    this.tell(kind, kinds[kind], words, id);
  }
  release() {
    const moment = performance.now();
    for (const [kind, held] of [...this.held]) if (held.until <= moment) this.releaseKind(kind, held);
  }
  releaseKind(kind, {count, words, id}) {
    this.held.delete(kind);
    if (!count) return;
    this.announce(kind, count > 1 ? `${count} more. The last: ${words}` : words, id);
  }
  tell(kind, title, words, id) {
    if (this.choices.sound.has(kind)) this.sounds.play(kind);
    if (this.choices.notification.has(kind)) this.notify(kind, title, words, id);
  }
  // One of a kind stands at a time: the next one takes its place.
  notify(kind, title, words, id) {
    if (!('Notification' in window) || Notification.permission !== 'granted') return;
    const {firm} = this.model.hello, notification = shown(`${title} \u00b7 ${firm}`, {body: words, tag: `${firm} ${kind}`, renotify: true, silent: true, icon: 'icon.svg'});
    if (!notification) return;
    notification.onclick = () => {
      window.focus();
      notification.close();
      if (id) this.go(id);
    };
  }
}

// Null where the browser lets no page make one, as those of telephones.
function shown(title, words) {
  try {
    return new Notification(title, words);
  } catch {
    return null;
  }
}
