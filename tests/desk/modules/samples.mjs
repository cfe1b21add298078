// What the desk tells: a market, requests and quotes, as desk/src/views.cpp writes them.
import {midday} from './stand.mjs';

export const BOND = 'BONDA0000001', SECOND = 'BONDB0000002';
const bonds = [{id: BOND, name: 'Alder 4 2034', grid: 256, priced: false, currency: 'USD'}, {id: SECOND, name: 'Birch 3 2030', grid: 32, priced: true, currency: 'EUR'}];
const session = {t: 'session', on: true, since: midday - 60_000, cause: '', alarm: '', exposure: 0, accepted: 0, open: 0, clock: 0, notice: null};
const traders = [{login: 'ann', trader: 'T1'}, {login: 'tom', trader: 'T2'}];
const common = {t: 'hello', now: midday, date: '20261127', days: [], banner: '', locksAfter: 0, traders};

export const dealerHello = (more = {}) => ({...common, firm: 'DLR1', market: {role: 'dealer', bonds, limits: {exposure: 60e6, quotes: 4096}},
  trader: {name: 'T1', login: 'ann', mayAct: true, isAdmin: false, quantity: null, exposure: null}, ...more, session: {...session, ...more.session}});

export const investorHello = (more = {}) => ({...common, firm: 'INV1', groups: {}, mostLines: 50,
  market: {role: 'investor', bonds, dealers: ['DLR1', 'DLR2', 'DLR3'], limits: {requests: 1024, open: 64, quantity: 5e6}},
  trader: {name: 'V1', login: 'ann', mayAct: true, isAdmin: false, quantity: null, exposure: null}, ...more, session: {...session, ...more.session}});

export const request = (id, more = {}) => ({id, bond: BOND, side: 'buy', quantity: 2e6, deadline: midday + 120_000, made: midday - 10_000, ended: null, trade: '',
  claimed: null, told: null, pending: [], history: [], state: 'open', investor: 'INV1', declined: false, result: null, quotes: [], ...more});

// A dealer's own quote.
export const own = (price, more = {}) => ({id: `Q${price}`, price: price * 256, state: 'ended', at: midday - 5000, trader: 'T1', valid: null, program: '', ...more});

// An investor's request, and a quote that it is shown.
export const asked = (id, more = {}) => request(id, {trader: 'V1', dealers: ['DLR1', 'DLR2', 'DLR3'].map(name => ({name, answer: 'none'})), award: null, cover: null, program: '', ...more});
export const offered = (dealer, price, more = {}) => ({id: `${dealer} ${price}`, dealer, price: price * 256, state: 'live', at: midday - 5000, valid: null, ...more});
export const shown = (dealer, price, at, more = {}) => offered(dealer, price, {at, ...more});
