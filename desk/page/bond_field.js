// A field for a bond, by name or identifier, that completes what is typed: a combobox in the words of
// WAI-ARIA.
import {h, show} from './dom.js';

const most = 8; // shown at one time

// Those that have every typed word in their name or identifier; a name that begins so comes first.
export function matches(bonds, typed) {
  const words = typed.toLowerCase().split(/\s+/).filter(Boolean);
  if (!words.length) return bonds;
  const found = bonds.filter(bond => {
    const own = `${bond.name} ${bond.id}`.toLowerCase();
    return words.every(word => own.includes(word));
  });
  const first = words.join(' ');
  const begins = bond => bond.name.toLowerCase().startsWith(first) || bond.id.toLowerCase() === first;
  return [...found.filter(begins), ...found.filter(bond => !begins(bond))];
}

export class BondField {
  constructor(bonds, changed) {
    this.bonds = bonds;
    this.changed = changed;
    this.bond = null;
    this.at = 0;
    this.list = h('ul', {id: 'bonds', role: 'listbox', hidden: true, 'aria-label': 'Bonds'});
    this.input = h('input', {id: 'bond', autocomplete: 'off', role: 'combobox', placeholder: 'name or ISIN',
      'aria-expanded': 'false', 'aria-controls': 'bonds', 'aria-autocomplete': 'list',
      oninput: () => this.typed(), onkeydown: event => this.key(event), onfocus: () => this.input.select(),
      onblur: () => this.leave()});
    this.node = h('div', {className: 'completed'}, this.input, this.list);
  }
  typed() {
    this.bond = null;
    this.at = 0;
    this.open();
    this.changed();
  }
  open() {
    this.found = matches(this.bonds, this.input.value).slice(0, most);
    this.list.replaceChildren(...this.found.map((bond, at) => h('li', {
      role: 'option', id: `bond-${at}`, onmousedown: event => { event.preventDefault(); this.choose(bond); }},
      h('span', {}, bond.name), h('span', {className: 'quiet'}, bond.name === bond.id ? '' : bond.id))));
    this.mark();
    show(this.list, this.found.length > 0);
    this.input.setAttribute('aria-expanded', String(this.found.length > 0));
  }
  mark() {
    [...this.list.children].forEach((node, at) => node.setAttribute('aria-selected', String(at === this.at)));
    if (this.found.length) this.input.setAttribute('aria-activedescendant', `bond-${this.at}`);
  }
  close() {
    show(this.list, false);
    this.input.setAttribute('aria-expanded', 'false');
    this.input.removeAttribute('aria-activedescendant');
  }
  choose(bond) {
    this.bond = bond;
    this.input.value = bond.name;
    this.close();
    this.changed();
  }
  // What was typed so far names one bond, or the marked one of the list.
  leave() {
    if (!this.list.hidden && this.input.value.trim() && this.found.length) this.choose(this.found[this.at]);
    this.close();
  }
  key(event) {
    const step = {ArrowDown: 1, ArrowUp: -1}[event.key];
    if (step) {
      if (this.list.hidden) return this.open(), event.preventDefault();
      this.at = (this.at + step + this.found.length) % Math.max(1, this.found.length);
      this.mark();
    } else if (event.key === 'Enter' && !this.list.hidden && this.found.length) {
      this.choose(this.found[this.at]);
    } else if (event.key === 'Escape' && !this.list.hidden) {
      this.close();
      event.stopPropagation();
    } else {
      return;
    }
    event.preventDefault();
  }
  // Whether what is typed is in no bond's name or identifier.
  isUnknown() { return !this.bond && this.input.value.trim() !== '' && !matches(this.bonds, this.input.value).length; }
  clear() {
    this.bond = null;
    this.input.value = '';
    this.close();
  }
}
