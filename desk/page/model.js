// Keeps what the desk has told this page: the market, the session, and the requests of the day.

export class Model {
  constructor() {
    this.hello = null;
    this.session = null;
    this.requests = new Map();
    this.lists = new Map(); // of an investor: what was asked at once
    this.programs = []; // of the firm, that act through the desk
    this.limits = [];    // of each trader: what an admin alone is told
    this.references = {}; // by bond: what the firm holds a price against
    this.distance = null; // from it, beyond which a price is asked about; none: a point
    this.fresh = []; // those of the last message that were not there before
    this.bonds = null; // what today.js makes of the requests, until they change
    this.isLinked = false; // to the desk's process
  }
  // Takes a message of the desk; gives the requests that changed, or null where all are new.
  take(message) {
    if (['hello', 'requests', 'changes'].includes(message.t)) this.bonds = null;
    switch (message.t) {
    case 'hello':
      this.hello = message;
      this.session = message.session;
      this.requests.clear();
      this.lists.clear();
      this.programs = [];
      this.references = {};
      this.isLinked = true;
      return null;
    case 'requests':
      this.fresh = message.requests.filter(request => !this.requests.has(request.id));
      for (const request of message.requests) this.requests.set(request.id, request);
      return message.requests;
    case 'changes':
      this.fresh = [];
      return message.changes.map(change => this.change(change)).filter(Boolean);
    case 'session':
      this.session = message;
      return [];
    case 'programs':
      this.programs = message.programs;
      return [];
    case 'lists':
      for (const list of message.lists) this.lists.set(list.id, list);
      return [];
    case 'trader': // with other limits than before
      this.hello.trader = message.trader;
      return [];
    case 'limits':
      this.limits = message.traders;
      return [];
    case 'references':
      this.references = message.references;
      this.distance = message.distance;
      return [];
    case 'down':
    case 'closed':
    case 'login':
      this.isLinked = false;
      return [];
    default: // of a desk that is newer than this page, or only the time
      return [];
    }
  }
  // A request is another object where something of it is another.
  change({id, set, lists}) {
    const before = this.requests.get(id);
    if (!before) return null;
    const request = {...before, ...set};
    for (const [key, {size, items}] of Object.entries(lists)) {
      request[key] = before[key].slice(0, size);
      for (const [at, item] of items) request[key][at] = item;
    }
    this.requests.set(id, request);
    return request;
  }
  isOn() { return this.isLinked && Boolean(this.session?.on); }
  isDealer() { return this.hello.market.role === 'dealer'; }
  mayAct() { return this.hello.trader.mayAct; }
  // Of a dealer: the quotes on a bond, on one side or on both, that the venue has not refused.
  quotesOf(bond, side) {
    const own = [...this.requests.values()].filter(one => one.bond === bond && (!side || one.side === side));
    return own.flatMap(one => one.quotes).filter(quote => quote.state !== 'refused' && quote.state !== 'undelivered');
  }
  // Those that nobody took back.
  keptOf(bond, side) { return this.quotesOf(bond, side).filter(quote => quote.state !== 'withdrawn'); }
  pricesOf(bond) { return this.keptOf(bond).map(quote => quote.price); }
  // The last of them, of anybody of the firm or of one trader.
  lastQuote(bond, side, trader) {
    return lastOf(this.quotesOf(bond, side).filter(one => !trader || one.trader === trader));
  }
  lastKept(bond, side) { return lastOf(this.keptOf(bond, side)); }
  lastPrice(bond, side) { return this.lastQuote(bond, side)?.price; }
  // Those that stand, each with the request that it answers.
  liveOf(bond) {
    const open = [...this.requests.values()].filter(one => one.bond === bond && isOpen(one) && liveQuote(one));
    return open.map(one => ({id: one.id, price: liveQuote(one).price}));
  }
  // The nominal of the quotes to other requests that are live, or on their way to it, and that `fits` lets through.
  exposureBeside(request, fits) {
    const stands = one => isOpen(one) && one.id !== request.id && one.quotes.some(quote => ['sent', 'live'].includes(quote.state) && fits(quote));
    return [...this.requests.values()].filter(stands).reduce((sum, one) => sum + one.quantity, 0);
  }
  bond(id) { return this.hello.market.bonds.find(one => one.id === id) ?? {id, name: id, grid: 256}; }
}

const lastOf = quotes => quotes.reduce((last, one) => !last || one.at >= last.at ? one : last, null);

export const isOpen = request => request.state === 'open' || request.state === 'sent';
export const hasTraded = request => request.state === 'done';
export const pendingOf = (request, act) => request.pending.find(one => one.act === act);
export const liveQuote = request => request.quotes.find(quote => quote.state === 'live');

// Whether a quote can't be hit any more, since its validity is over.
export const isOver = (quote, moment) => quote.state !== 'hit' && quote.valid !== null && quote.valid <= moment;

// Of an investor: best first; of equal prices the earlier. What is over comes last.
export function ranked(request, moment) {
  const sign = request.side === 'buy' ? 1 : -1;
  return request.quotes.filter(quote => quote.state !== 'gone')
    .sort((a, b) => isOver(a, moment) - isOver(b, moment) || sign * (a.price - b.price) || a.at - b.at);
}
