// What a page of the desk needs of a browser, in node: jsdom's document, a clock that a test moves, and a desk at the
// other end of its socket that says what a test has it say. Nothing here has a layout: each element stands in sight.
import fs from 'node:fs';
import path from 'node:path';
import {createRequire} from 'node:module';
import {pathToFileURL} from 'node:url';

const {JSDOM} = createRequire(import.meta.url)('jsdom');
const pages = process.env.PAGES; // the folder of a copy that node takes for modules
export const midday = Date.UTC(2026, 10, 27, 12);

export const clock = {
  at: midday, // milliseconds
  timers: new Map(),
  last: 0,
  add(act, after, every) {
    this.timers.set(++this.last, {act, at: this.at + Math.max(after ?? 0, 1), every});
    return this.last;
  },
  // Runs what is due, in its order.
  pass(milliseconds) {
    const end = this.at + milliseconds;
    for (;;) {
      const due = [...this.timers].filter(([, one]) => one.at <= end).sort(([a, x], [b, y]) => x.at - y.at || a - b)[0];
      if (!due) break;
      const [number, timer] = due;
      this.at = timer.at;
      if (timer.every) timer.at += timer.every;
      else this.timers.delete(number);
      timer.act();
    }
    this.at = end;
  },
  // As of a page that was hidden: what is due runs once.
  skip(milliseconds) {
    this.at += milliseconds;
    for (const timer of this.timers.values()) if (timer.every && timer.at < this.at) timer.at = this.at;
    this.pass(0);
  },
};

// A message of the desk, or a page that has gone, at the page's end of a socket.
export class Socket {
  constructor(address) {
    this.address = address;
    this.sent = [];
    Socket.all.push(this);
  }
  send(text) { this.sent.push(JSON.parse(text)); }
  close() { this.isClosed = true; }
  static all = [];
  static get last() { return Socket.all.at(-1); }
}

export class Notice {
  static permission = 'granted';
  static asked = [];
  static all = [];
  static requestPermission() { return Promise.resolve(Notice.permission = Notice.answer ?? 'granted'); }
  constructor(title, words) {
    if (Notice.isRefused) throw new TypeError('Illegal constructor');
    Object.assign(this, {title, ...words});
    Notice.all.push(this);
  }
  close() { this.isClosed = true; }
}

// Where an element stands, if not where all do: {left, top, width, height}.
export const boxes = new Map();
const everywhere = {left: 0, top: 0, width: 100, height: 20};

const html = fs.readFileSync(path.join(pages, 'index.html'), 'utf8').replace(/<script.*?<\/script>/g, '');
export const {window} = new JSDOM(html, {url: 'http://desk.example:8443/', pretendToBeVisual: true});
export const {document} = window;

function isShown(node) {
  for (let one = node; one; one = one.parentElement) if (one.hidden) return false;
  return node.isConnected;
}

Object.defineProperty(window.HTMLElement.prototype, 'offsetParent', {get() { return isShown(this) ? this.parentElement : null; }});
Object.defineProperty(window.HTMLElement.prototype, 'offsetHeight', {get() { return (boxes.get(this) ?? everywhere).height; }});
Object.assign(window.Element.prototype, {
  checkVisibility() { return isShown(this); },
  scrollIntoView(how) { this.scrolled = how; },
  scrollBy(...by) { this.scrolledBy = by; },
  getBoundingClientRect() {
    const {left, top, width, height} = boxes.get(this) ?? everywhere;
    return {left, top, width, height, right: left + width, bottom: top + height};
  },
});
Object.assign(window.HTMLDialogElement.prototype, {
  showModal() { this.setAttribute('open', ''); },
  close() { this.removeAttribute('open'); },
});
Array.prototype.toReversed ??= function () { return [...this].reverse(); };

window.Notification = Notice;
export const asked = []; // of the desk's server, each {path, body}
export const answers = {}; // by path: what fetch gives
class FakeDate extends Date {
  constructor(...words) { super(...(words.length ? words : [clock.at])); }
  static now() { return clock.at; }
}
Object.assign(globalThis, {
  window, document, Notification: Notice, WebSocket: Socket, Date: FakeDate, scrollX: 0, scrollY: 0,
  localStorage: window.localStorage, sessionStorage: window.sessionStorage, location: {protocol: 'http:', host: 'desk.example:8443', reload() { this.reloads = (this.reloads ?? 0) + 1; }},
  getComputedStyle: () => ({gridTemplateColumns: Socket.columns ?? '1px'}),
  matchMedia: () => ({matches: false}),
  setTimeout: (act, after) => clock.add(act, after), clearTimeout: number => clock.timers.delete(number),
  setInterval: (act, every) => clock.add(act, every, every), clearInterval: number => clock.timers.delete(number),
  fetch: async (to, {body} = {}) => {
    asked.push({path: to, body: body && JSON.parse(body)});
    if (!(to in answers)) throw new TypeError('fetch failed');
    return answers[to];
  },
});
Object.defineProperty(performance, 'now', {value: () => clock.at - midday + 100_000, configurable: true});

export const load = name => import(pathToFileURL(path.join(pages, name)));

// What a person does.
export function press(node, key, more = {}) {
  const event = new window.KeyboardEvent('keydown', {key, bubbles: true, cancelable: true, ...more});
  node.dispatchEvent(event);
  return event;
}
export function type(node, text) {
  node.focus();
  node.value = text;
  node.dispatchEvent(new window.Event('input', {bubbles: true}));
}
export function choose(node, value) {
  node.value = value;
  node.dispatchEvent(new window.Event('change', {bubbles: true}));
}
// By a mouse, whose clicks count.
export function click(node) {
  const event = new window.MouseEvent('click', {bubbles: true, cancelable: true, detail: 1});
  node.dispatchEvent(event);
  return event;
}
export const words = node => node.textContent.replaceAll('\u2007', '').replaceAll('\u2008', '');
export const isSeen = node => isShown(node);
// The button that is shown with these words.
export const button = (within, name) => [...within.querySelectorAll('button')].find(one => isShown(one) && words(one).replace(/\?$/, '') === name);
// All that waits for an answer, and for none of the clock's.
export const rest = () => new Promise(resolve => setImmediate(resolve));
