// Sorts a table's rows by the heads of its columns, or by a list of them if the heads have no room.
import {h, set} from './dom.js';

const words = new Intl.Collator('en', {numeric: true, sensitivity: 'base'}); // 3.5 before 12

export class Sorting {
  // columns are {name, of(row), isNumber, isLeastFirst, kind}; changed() is called behind each choice.
  constructor(columns, changed) {
    this.columns = columns;
    this.changed = changed;
    this.column = null; // none: the rows' own order
    this.isDown = false;
    this.marks = columns.map(() => h('span', {className: 'mark', 'aria-hidden': 'true'}));
    this.heads = columns.map((column, at) => h('th', {scope: 'col', className: column.kind ?? ''},
      h('button', {type: 'button', className: 'by', title: 'Sort', onclick: () => this.press(column)}, column.name, this.marks[at])));
    this.choice = h('select', {className: 'by', 'aria-label': 'Sort by', onchange: () => this.press(columns[this.choice.value] ?? null)},
      h('option', {value: ''}, 'sort'), ...columns.map(({name}, at) => h('option', {value: at}, name)));
  }
  // Numbers and times begin with the greatest, a time that is left with the least, words with the first; the third press
  // of a column leaves it.
  press(column) {
    const first = Boolean(column?.isNumber && !column.isLeastFirst);
    if (column && column === this.column && this.isDown !== first) column = null;
    this.isDown = column === this.column ? !this.isDown : first;
    this.column = column;
    this.mark();
    this.changed();
  }
  mark() {
    this.columns.forEach((column, at) => {
      const is = column === this.column;
      if (is) this.heads[at].setAttribute('aria-sort', this.isDown ? 'descending' : 'ascending');
      else this.heads[at].removeAttribute('aria-sort');
      set(this.marks[at], !is ? '' : this.isDown ? ' \u25be' : ' \u25b4');
    });
    this.choice.value = this.column ? String(this.columns.indexOf(this.column)) : '';
  }
  // What has no value stands last, either way.
  sort(rows) {
    if (!this.column) return rows;
    const {of, isNumber} = this.column, sign = this.isDown ? -1 : 1;
    const has = row => { const value = of(row); return value !== undefined && value !== null && value !== '' && value !== 0; };
    const compare = isNumber ? (a, b) => of(a) - of(b) : (a, b) => words.compare(of(a), of(b));
    return rows.sort((a, b) => has(b) - has(a) || (has(a) ? sign * compare(a, b) : 0));
  }
}
