// Shows what the desk's server works out of a bond's data: yield, settlement, accrued interest, amounts. All of it is a
// help.
import {money} from './amounts.js';

const pause = 150; // milliseconds behind a key, before the desk is asked

// Of a yield or a rate, in percent.
export const percent = (value, places = 3) => value === null || value === undefined ? '' : `${value.toFixed(places)} %`;

// A yield that was typed, in percent: 4.25%, 4.25 % or y4.25. Null where it is none.
export function parseYield(entry) {
  const parts = /^(?:y\s*(-?\d{1,3}(?:\.\d{0,8})?)|(-?\d{1,3}(?:\.\d{0,8})?)\s*%)$/i.exec(entry.trim());
  return parts ? Number(parts[1] ?? parts[2]) : null;
}

// Below zero between the ex-dividend date and the coupon, which the seller gets.
export const accruedWords = accrued => accrued < 0 ? `ex-dividend, accrued \u2212${Math.abs(accrued)}` : `accrued ${accrued}`;

// What stands on the card of a request whose bond has data.
export function helpWords({settles, accrued, amounts}, {currency = ''}) {
  if (!settles) return '';
  const pays = amounts ? `, the buyer pays ${money(amounts.total)} ${currency}` : '';
  return `As a help: settles ${settles}, ${accruedWords(accrued)} of 100${pays}`;
}

// Asks the desk for what follows from a price or a yield of one bond and quantity, once the keys rest.
export class WorkedOut {
  // changed() is called when an answer has come.
  constructor(link, bond, changed) {
    this.link = link;
    this.bond = bond;
    this.changed = changed;
    this.key = '';      // of what was asked last
    this.answer = null; // {price, yield, amounts, ..}, or {why}; null until it comes
  }
  // The answer to {price} or {yield}, or null; it is asked for where it is not known.
  of(question, quantity) {
    const key = JSON.stringify([question, quantity]);
    if (key === this.key) return this.answer;
    clearTimeout(this.timer);
    this.key = key;
    this.answer = null;
    this.timer = setTimeout(() => this.ask(key, question, quantity), pause);
    return null;
  }
  ask(key, question, quantity) {
    this.link.ask({do: 'price', bond: this.bond.id, quantity, ...question}, answer => {
      if (key !== this.key) return;
      this.answer = answer;
      this.changed();
    });
  }
}
