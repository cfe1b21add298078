// How a trader of a dealer's firm claims a request, releases it and hands it over, and how others see whose it is. A
// claim is the desk's; it forbids nobody anything.
import {h, set, show} from './dom.js';
import {clock} from './amounts.js';
import {label} from './presses.js';

export class Claim {
  // act(command) has the desk do something with the request.
  constructor(desk, act) {
    this.desk = desk;
    this.act = act;
    this.words = h('span', {className: 'quiet'});
    const button = (name, press) => h('button', {type: 'button', className: 'small', onclick: press}, name);
    this.take = button('Claim', () => this.act({do: 'claim'}));
    this.release = button('Release', () => this.act({do: 'release'}));
    this.give = button('Hand over', () => this.act({do: 'hand over', to: this.whom.value}));
    this.whom = h('select', {className: 'whom'}, ...this.colleagues().map(one => h('option', {value: one.login}, `to ${one.login} (${one.trader})`)));
    this.node = h('div', {className: 'foot claim'}, this.words, this.release, this.whom, this.give);
  }
  colleagues() {
    const {traders = [], trader} = this.desk.model.hello;
    return traders.filter(one => one.login !== trader.login);
  }
  isOwn() { return this.claimed?.login === this.desk.model.hello.trader.login; }
  isOthers() { return Boolean(this.claimed) && !this.isOwn(); }
  whose() { return `${this.claimed.login} (${this.claimed.trader}) has claimed this request`; }
  draw(request, of, isAnswerable) {
    this.claimed = request.claimed;
    const {claimed} = this;
    set(this.words, !claimed ? '' : this.isOwn() ? `Yours, ${clock(claimed.at).slice(0, 5)} UTC` : `${this.whose()}, ${clock(claimed.at).slice(0, 5)} UTC`);
    show(this.take, isAnswerable && !claimed && this.colleagues().length > 0);
    show(this.release, Boolean(claimed));
    show(this.whom, this.isOwn());
    show(this.give, this.isOwn());
    for (const button of [this.take, this.release, this.give]) label(button, of);
    this.whom.setAttribute('aria-label', `Hand over ${of}`);
    show(this.node, isAnswerable && Boolean(claimed));
  }
}
