// What the firm has bought and sold today, by bond, from its own trades: all of them, whatever the blotter's filter shows.
import {h, set, show} from './dom.js';
import {amount, clock, signed} from './amounts.js';
import {aligned} from './price.js';
import {todayOf} from './today.js';

export class Positions {
  constructor(model) {
    this.model = model;
    this.list = h('tbody');
    this.title = h('summary');
    const head = (name, kind = 'number') => h('th', {scope: 'col', className: kind}, name);
    this.node = h('details', {className: 'positions', open: true}, this.title, h('table', {},
      h('thead', {}, h('tr', {}, head('Bond', ''), head('Bought'), head('Sold'), head('Net'), head('Last trade'), head('UTC'))), this.list));
  }
  draw(is) {
    const rows = [...todayOf(this.model)].filter(([, day]) => day.trade);
    show(this.node, is && rows.length > 0);
    set(this.title, `Position of today, in ${rows.length} ${rows.length === 1 ? 'bond' : 'bonds'}`);
    this.list.replaceChildren(...rows.map(([id, day]) => this.row(this.model.bond(id), day)));
  }
  row(bond, {bought, sold, trade}) {
    const cell = (value, kind = '') => h('td', {className: `number ${kind}`}, value);
    return h('tr', {}, h('th', {scope: 'row'}, bond.name), cell(amount(bought)), cell(amount(sold)), cell(signed(bought - sold), 'net'),
      cell(aligned(trade.price, bond.grid), 'price'), cell(clock(trade.at)));
  }
}
