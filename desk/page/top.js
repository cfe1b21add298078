// The head of the page: who the trader is, whether the venue is there, and how much of the limits is used.
import {h, looksDead, set, show} from './dom.js';
import {amount, clock} from './amounts.js';
import {mode} from './price.js';

const apart = 1500; // milliseconds: clocks that differ by more are told

export class Top {
  // acts are {toggle, cancelAll, logOut}; `more` are the buttons of other parts.
  constructor(acts, more) {
    this.firm = h('b');
    this.role = h('span', {className: 'quiet'});
    this.light = h('span', {className: 'light', role: 'status'});
    this.cause = h('span', {className: 'cause'}); // why the venue is not there
    this.used = h('span', {className: 'counts'});
    this.clock = h('span', {className: 'number clock'});
    this.said = h('span', {className: 'said', role: 'status'});
    this.cancel = h('button', {type: 'button', className: 'panic', id: 'cancelall', onclick: acts.cancelAll}, 'Cancel all', h('kbd', {}, 'F9'));
    this.form = h('span');
    this.format = h('button', {type: 'button', id: 'format', onclick: acts.toggle}, h('span', {className: 'quiet'}, 'Prices: '), this.form);
    this.out = h('button', {type: 'button', id: 'logout', onclick: acts.logOut}, 'Log out');
    this.nodes = [h('div', {className: 'state'}, h('div', {className: 'first'}, h('span', {className: 'who'}, this.firm, ' ', this.role), this.light, this.clock),
      h('div', {}, this.cause, this.used)), this.cancel, ...more.slice(0, -1), this.format, more.at(-1), this.out];
    this.others = [...more, this.format, this.out];
    for (const button of [this.cancel, ...this.others]) show(button, false);
  }
  draw(model, isKnown, isClosed) {
    const {session, hello} = model, isOn = model.isOn();
    set(this.light, !isKnown ? 'Not logged in' : !model.isLinked ? (isClosed ? '\u25cb This page is closed' : '\u25cb No connection to the desk: trying')
      : isOn ? '\u25cf Venue connected'
      : `\u25cb Venue not connected since ${clock(session.since)} UTC`);
    set(this.cause, isKnown && model.isLinked && !isOn ? `${session.cause ? `${session.cause[0].toUpperCase()}${session.cause.slice(1)}. ` : ''}Trying. ` : '');
    this.light.classList.toggle('bad', isKnown && !isOn);
    set(this.form, mode.thirtySeconds ? '32nds' : 'decimal');
    for (const button of this.others) show(button, Boolean(hello) && isKnown);
    show(this.cancel, Boolean(hello) && isKnown && model.isDealer() && model.mayAct());
    looksDead(this.cancel, !model.isLinked);
    if (!hello || !isKnown) return;
    set(this.firm, hello.firm);
    set(this.role, `${hello.trader.login} (${hello.trader.name}), ${hello.market.role}${hello.trader.mayAct ? '' : ', may look'}`);
    set(this.used, isOn ? usage(model) : used(model));
    this.used.title = model.isDealer() ? 'Exposure: the nominal of all live quotes of the firm, on both sides. Quotes: those that the venue accepted today.'
      : 'Of the firm: requests that are open, and those that the venue accepted today.';
  }
  tick(moment) { set(this.clock, `${clock(moment)} UTC`); }
  say(what, isBad) {
    set(this.said, what);
    this.said.classList.toggle('why', Boolean(isBad));
    clearTimeout(this.timer);
    this.timer = setTimeout(() => set(this.said, ''), 8000);
  }
}

// Of what the venue lets the firm have at one time.
function used({session, hello: {market: {role, limits}}}) {
  return role === 'dealer' ? `Exposure ${amount(session.exposure)} of ${amount(limits.exposure)} (${Math.round(100 * session.exposure / limits.exposure)} %)`
    : `Requests open ${amount(session.open)} of ${amount(limits.open)}`;
}

function usage(model) {
  const {session, hello: {market: {limits}}} = model;
  const today = model.isDealer() ? `quotes today ${amount(session.accepted)} of ${amount(limits.quotes)}` : `today ${amount(session.accepted)} of ${amount(limits.requests)}`;
  const skew = Math.abs(session.clock) > apart ? ` \u00b7 the venue\u2019s clock is ${(session.clock / 1000).toFixed(1)} s apart` : '';
  return `${used(model)} \u00b7 ${today}${skew}`;
}
