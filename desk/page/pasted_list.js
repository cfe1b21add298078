// The part of the ticket for a pasted list of many requests. It checks each line before anything is asked.
import {h, set, show} from './dom.js';
import {amount, clock, counted, spanWords} from './amounts.js';
import {doubt, readList} from './list_text.js';
import {isOpen} from './model.js';

const mostCharacters = 40_000;

export class PastedList {
  // changed() is called when other lines stand in it.
  constructor(model, changed) {
    this.model = model;
    this.lines = [];
    this.text = h('textarea', {id: 'lines', rows: 5, maxLength: mostCharacters, spellcheck: false, autocomplete: 'off',
      placeholder: 'A line for each request: bond, side, quantity, parted by tabs, semicolons, commas or spaces', oninput: () => { this.read(); changed(); }});
    this.name = h('input', {id: 'list-name', autocomplete: 'off', maxLength: 24});
    this.rows = h('tbody');
    const head = (name, kind = '') => h('th', {scope: 'col', className: kind}, name);
    this.table = h('table', {className: 'checked'}, h('thead', {}, h('tr', {}, head('Line', 'number'), head('Side'), head('Quantity', 'number'), head('Bond'))), this.rows);
    this.node = h('div', {className: 'many'}, this.text, this.table, h('label', {htmlFor: 'list-name'}, 'Name'), this.name);
  }
  read() {
    this.lines = readList(this.text.value, this.model.hello);
    const open = [...this.model.requests.values()].filter(isOpen);
    this.rows.replaceChildren(...this.lines.map((line, at) => this.row(line, at, doubt(line, at, this.lines, open))));
    show(this.table, this.lines.length > 0);
  }
  row({text, bond, side, quantity, why}, at, doubt) {
    const cell = (value, kind = '') => h('td', {className: kind}, value);
    const words = why ? h('p', {className: 'why'}, why) : doubt ? h('p', {}, `Look: ${doubt}`) : '';
    return h('tr', {'data-side': side ?? ''}, cell(String(at + 1), 'number'), cell(side?.toUpperCase() ?? '', 'side'),
      cell(quantity ? amount(quantity) : '', 'number'), h('td', {}, bond?.name ?? text, words));
  }
  clear() {
    this.text.value = this.name.value = '';
    this.read();
  }
  // What is missing or wrong, as of the other fields of the ticket.
  faults() {
    const {lines} = this, {market: {limits}, mostLines} = this.model.hello, wrong = lines.findIndex(line => line.why);
    const left = limits.requests - this.model.session.accepted;
    if (!lines.length) return [{at: 'lines', what: 'lines', why: 'Paste a line for each request: a bond, a side and a quantity.'}];
    if (lines.length > mostLines) return [{at: 'lines', isWrong: true, why: `${lines.length} lines: a list has ${mostLines} at most.`}];
    if (wrong >= 0) return [{at: 'lines', isWrong: true, why: `Line ${wrong + 1}: ${lines[wrong].why}`}];
    return lines.length > left ? [{at: 'lines', isWrong: true, why: `${counted(lines.length, 'line')}, and ${counted(left, 'request')} ${left === 1 ? 'is' : 'are'} left of the day.`}] : [];
  }
  sums() {
    const of = side => this.lines.filter(line => line.side === side).reduce((sum, line) => sum + line.quantity, 0);
    return [['buy', of('buy')], ['sell', of('sell')]].filter(([, sum]) => sum).map(([side, sum]) => `${side} ${amount(sum)}`).join(' and ');
  }
  summary(seconds) {
    return `${counted(this.lines.length, 'request')}: ${this.sums()}. Answers within ${spanWords(seconds)} ` +
      'of each request, asked one after the other as the limits allow';
  }
  command(seconds, dealers, moment) {
    return {do: 'ask list', name: this.name.value.trim() || `List ${clock(moment)}`, seconds, dealers,
      lines: this.lines.map(({bond, side, quantity}) => ({bond: bond.id, side, quantity}))};
  }
}
