// The connection to the desk's process, which has the state: this page only shows it.

const key = 'token'; // of this origin, port included, unlike the cookie that goes with it
const pause = 1000;
const stepBack = 2000;     // milliseconds: a clock that is so much behind was set, and no message was that late
const aliveEvery = 20_000; // milliseconds between two words that a person is at the page
export const unsent = 'No connection to the desk: nothing was sent.';
const reason = 'why';      // of the storage of this window: why the login is asked for

export class Link {
  // hear(message) is called for each message, and with {t: 'down'}, {t: 'closed', why} and {t: 'login'}.
  constructor(hear) {
    this.hear = hear;
    this.isUp = false;
    this.skew = 0; // of the desk's clock to the browser's, in milliseconds
    this.count = 0;
    this.refusals = 0; // of the handshake, one after the other, by a desk that serves
    this.waiting = new Map();
    this.questions = new Map(); // by number: who hears the answer, which may come in parts
  }
  now() { return Date.now() + this.skew; }

  connect() {
    const token = localStorage.getItem(key);
    if (!token) return this.hear({t: 'login'});
    const scheme = location.protocol === 'https:' ? 'wss' : 'ws';
    const socket = this.socket = new WebSocket(`${scheme}://${location.host}/socket`);
    let opened = false;
    socket.onopen = () => { opened = true; socket.send(JSON.stringify({token})); };
    socket.onmessage = event => this.take(JSON.parse(event.data));
    socket.onclose = event => this.lose(event.code === 1008, opened);
  }

  take(message) {
    this.isUp = true;
    this.refusals = 0;
    if (message.now) this.setClock(message);
    if (message.t === 'closed') this.whyClosed = message.why;
    const {number} = message;
    if (this.questions.has(number)) {
      this.questions.get(number)(message);
      if (message.last !== false) this.questions.delete(number);
    } else if (message.t === 'said') {
      this.waiting.get(number)?.(message.why);
      this.waiting.delete(number);
    } else {
      this.hear(message);
    }
  }

  // What came fastest says best what time it is at the desk, until its clock is set back.
  setClock({t, now}) {
    const skew = now - Date.now();
    if (t === 'hello' || skew > this.skew || this.skew - skew > stepBack) this.skew = skew;
  }

  // A refusal of the handshake can't be told from a desk that is down: the desk is asked. One that came
  // back between the two questions has refused nothing, so it takes two refusals.
  async lose(isOver, opened) {
    this.isUp = false;
    for (const tell of this.waiting.values()) {
      tell('The desk did not answer. Look at the state when it is back: nothing is sent twice.');
    }
    this.waiting.clear();
    for (const hear of this.questions.values()) hear({t: 'said', why: 'The desk did not answer.'});
    this.questions.clear();
    if (this.whyClosed) return; // it comes back when a person asks for it
    this.refusals = !opened && await isServed() ? this.refusals + 1 : 0;
    if (isOver || this.refusals > 1) return this.forget(isOver && this.isLeft() ? this.leftWords() : '');
    this.hear({t: 'down'});
    setTimeout(() => this.connect(), pause);
  }

  forget(why = '') {
    localStorage.removeItem(key);
    sessionStorage.setItem(reason, why);
    this.hear({t: 'login'});
  }

  // A person is at the page: an idle one makes room for others and, where the firm sets a time, is locked by the desk.
  alive() {
    const moment = performance.now();
    if (!this.isUp || moment - (this.aliveAt ?? -aliveEvery) < aliveEvery) return;
    this.aliveAt = moment;
    this.socket.send(JSON.stringify({here: true}));
  }
  isLeft() { return Boolean(this.locksAfter) && performance.now() - (this.aliveAt ?? 0) >= this.locksAfter * 60_000 - aliveEvery; }
  leftWords() { return `Locked: nobody was at this page for ${this.locksAfter} ${this.locksAfter === 1 ? 'minute' : 'minutes'}.`; }
  // Why the login is asked for, once.
  takeReason() {
    const why = sessionStorage.getItem(reason) ?? '';
    sessionStorage.removeItem(reason);
    return why;
  }

  // Tells why it was not done, or an empty text. Nothing is kept for later: it would be stale.
  act(command, tell = () => {}) {
    if (!this.isUp) return tell(unsent);
    this.waiting.set(++this.count, tell);
    this.socket.send(JSON.stringify({...command, number: this.count}));
  }

  // Something that binds nobody: hear(message) has each part of the answer, or `said` with the reason why there is none.
  ask(command, hear) {
    if (!this.isUp) return hear({t: 'said', why: 'No connection to the desk.'});
    this.questions.set(++this.count, hear);
    this.socket.send(JSON.stringify({...command, number: this.count}));
  }

  // Why the login was refused, or an empty text.
  async logIn(login, password) {
    try {
      const answer = await post('/login', {login, password});
      const {token, why} = await answer.json();
      if (!token) return why;
      localStorage.setItem(key, token);
      this.connect();
      return '';
    } catch {
      return 'The desk does not answer.';
    }
  }

  async logOut() {
    try {
      await post('/logout', {token: localStorage.getItem(key) ?? ''});
    } finally {
      this.socket?.close();
      this.forget();
    }
  }
}

function post(path, message) {
  const headers = {'Content-Type': 'application/json'};
  return fetch(path, {method: 'POST', headers, body: JSON.stringify(message)});
}

async function isServed() {
  try {
    return (await fetch('/icon.svg', {cache: 'no-store'})).ok;
  } catch {
    return false;
  }
}
