// What a firm's admin sets while the desk runs: each trader's limits, the reference prices of bonds, and how far a
// price may be from them before the page asks about it.
import {h, arrange, set, show} from './dom.js';
import {amount, clock, parseAmount} from './amounts.js';
import {parse, text} from './price.js';

const finest = 256; // of all grids: a reference may stand between two steps of a bond's own

const field = (label, words = {}) => h('input', {className: 'number', autocomplete: 'off', 'aria-label': label, 'data-shown': '', ...words});

// Shows what holds, but for a field in which somebody has typed something else.
function follow(input, value) {
  if (input.value === input.dataset.shown) input.value = value;
  if (input.value === value) input.dataset.shown = value;
}

export class FirmLimits {
  constructor(model, link) {
    this.model = model;
    this.link = link;
    this.button = h('button', {type: 'button', id: 'limits-button', 'aria-haspopup': 'dialog', hidden: true, onclick: () => this.open()}, 'Limits');
    this.traders = h('tbody');
    this.references = h('tbody');
    this.bond = h('select', {'aria-label': 'Bond of the reference'});
    this.price = field('Reference price', {inputMode: 'decimal'});
    this.distance = field('Distance in points', {inputMode: 'decimal', placeholder: '1'});
    this.why = h('p', {role: 'status'});
    this.rows = new Map(); // by login
    this.lines = new Map(); // of references, by bond
    this.close = h('button', {className: 'strong'}, 'Close');
    this.node = h('dialog', {id: 'limits', 'aria-labelledby': 'limits-title'}, h('h2', {id: 'limits-title'}, 'Limits of the firm'),
      this.traderTable(), this.referenceForm(), this.distanceForm(), this.why, h('form', {method: 'dialog', className: 'foot'}, this.close));
  }
  traderTable() {
    const head = (name, kind = '') => h('th', {scope: 'col', className: kind}, name);
    return h('table', {}, h('thead', {}, h('tr', {}, head('Trader'), head('Quantity of a request'), head('Exposure'), head('Used', 'number used'), head('Set'))), this.traders);
  }
  referenceForm() {
    const head = (name, kind = '') => h('th', {scope: 'col', className: kind}, name);
    return h('form', {onsubmit: event => this.setReference(event)}, h('h3', {}, 'References'),
      h('div', {className: 'bar'}, this.bond, this.price, h('button', {type: 'submit', className: 'small'}, 'Set the reference')),
      h('table', {}, h('thead', {}, h('tr', {}, head('Bond'), head('Price', 'number'), head('Set, UTC'), head('By'), head('Remove'))), this.references));
  }
  distanceForm() {
    return h('form', {onsubmit: event => this.setDistance(event)}, h('h3', {}, 'A typed word is wanted beyond'),
      h('div', {className: 'bar'}, this.distance, h('span', {}, 'points'), h('button', {type: 'submit', className: 'small'}, 'Set the distance')));
  }
  begin() {
    const {trader, market} = this.model.hello;
    show(this.button, Boolean(trader.isAdmin));
    this.bond.replaceChildren(...market.bonds.map(bond => h('option', {value: bond.id}, bond.name)));
  }
  open() {
    this.tell('');
    this.distance.value = this.distance.dataset.shown;
    this.draw();
    this.node.showModal();
    this.close.focus();
  }
  // Behind each message: what somebody types stays.
  draw() {
    if (!this.model.hello?.trader.isAdmin) return;
    arrange(this.traders, this.model.limits.map(one => this.traderRow(one)));
    arrange(this.references, Object.entries(this.model.references).map(([id, one]) => this.referenceRow(id, one)));
    follow(this.distance, this.model.distance === null ? '' : text(this.model.distance));
  }
  // `done` is what holds once the desk has taken it; took() is called then.
  act(command, done, took = () => {}) {
    this.link.act(command, why => {
      this.tell(why || done, Boolean(why));
      if (!why) took();
      this.draw();
    });
  }
  tell(words, isBad = false) {
    set(this.why, words);
    this.why.classList.toggle('why', isBad);
  }
  traderRow(trader) {
    const row = this.rows.get(trader.login) ?? this.addRow(trader);
    for (const [name, input] of Object.entries(row.most)) follow(input, trader[name] === null ? '' : amount(trader[name]));
    set(row.used, amount(trader.used));
    return row.node;
  }
  addRow({login, trader, mayAct}) {
    const most = {quantity: field(`Quantity of ${login}`, {placeholder: 'the firm\u2019s'}), exposure: field(`Exposure of ${login}`, {placeholder: 'the firm\u2019s'})};
    const press = h('button', {type: 'button', className: 'small', 'aria-label': `Set the limits of ${login}`, onclick: () => this.setLimits(login, most)}, 'Set');
    const enter = event => { if (event.key === 'Enter' && !event.repeat) this.setLimits(login, most); };
    for (const input of Object.values(most)) input.addEventListener('keydown', enter);
    const row = {most, used: h('td', {className: 'number used'})};
    row.node = h('tr', {}, h('th', {scope: 'row'}, `${login} (${trader})${mayAct ? '' : ', looks only'}`), h('td', {}, most.quantity), h('td', {}, most.exposure),
      row.used, h('td', {}, press));
    this.rows.set(login, row);
    return row;
  }
  setLimits(login, most) {
    const typed = Object.entries(most).map(([name, input]) => [name, input.value.trim()]);
    const wrong = typed.find(([, value]) => value && parseAmount(value) === null);
    if (wrong) return this.tell(`${wrong[1]} is no ${wrong[0]}: write 2,000,000, 2m or 500k, or nothing for the firm\u2019s own.`, true);
    const limits = Object.fromEntries(typed.map(([name, value]) => [name, value ? parseAmount(value) : null]));
    const words = Object.entries(limits).map(([name, value]) => `${name} ${value === null ? 'the firm\u2019s own' : amount(value)}`).join(', ');
    this.act({do: 'set limits', login, ...limits}, `Set for ${login}: ${words}.`, () => {
      Object.assign(this.model.limits.find(one => one.login === login), limits); // as the desk tells it within a second
      for (const [name, input] of Object.entries(most)) input.value = input.dataset.shown = limits[name] === null ? '' : amount(limits[name]);
    });
  }
  referenceRow(id, {price, at, by}) {
    const line = this.lines.get(id) ?? this.addReference(id);
    [text(price), clock(at), by].forEach((words, nth) => set(line.cells[nth], words));
    return line.node;
  }
  addReference(id) {
    const {name} = this.model.bond(id), cells = [h('td', {className: 'number'}), h('td'), h('td')];
    const remove = h('button', {type: 'button', className: 'small', 'aria-label': `Remove the reference of ${name}`,
      onclick: () => this.act({do: 'set reference', bond: id, price: null}, `${name} has no reference any more.`)}, 'Remove');
    const line = {cells, node: h('tr', {}, h('th', {scope: 'row'}, name), ...cells, h('td', {}, remove))};
    this.lines.set(id, line);
    return line;
  }
  setReference(event) {
    event.preventDefault();
    const {price, why} = parse(this.price.value, finest);
    if (why) return this.tell(why, true);
    this.act({do: 'set reference', bond: this.bond.value, price}, `The reference of ${this.model.bond(this.bond.value).name} is ${text(price)}.`);
    this.price.value = '';
  }
  setDistance(event) {
    event.preventDefault();
    const {value} = this.distance, typed = value.trim(), {price, why} = typed ? parse(typed, finest) : {price: null};
    if (why) return this.tell(`${typed} is no distance: write 0.5 or 1, in points, or nothing for one point.`, true);
    this.act({do: 'set distance', distance: price}, `A typed word is wanted beyond ${price === null ? 'one point' : `${text(price)} points`}.`,
      () => { this.distance.dataset.shown = value; }); // it follows the desk again
  }
}
