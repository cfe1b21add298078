// Asks a trader to type a word before something unusual is sent: one more Enter could be a habit.
import {h, set, show} from './dom.js';

export class TypedWord {
  // act() is called when the word stands there and Enter is pressed; back() where the trader leaves it by Escape.
  constructor(act, back) {
    this.act = act;
    this.back = back;
    this.word = '';
    this.words = h('span', {className: 'told', role: 'status'});
    this.input = h('input', {className: 'word', autocomplete: 'off', spellcheck: false, maxLength: 12, onkeydown: event => this.press(event)});
    this.node = h('label', {className: 'foot guard', hidden: true}, this.words, this.input);
  }
  // `why` stands beside it for as long as it is wanted; `of` says for a screen reader to what it belongs.
  ask(word, why, of) {
    this.word = word;
    this.asks = `${why}: type ${word} to send it`;
    this.input.value = '';
    set(this.words, this.asks);
    this.input.setAttribute('aria-label', `Type ${word} to send it: ${of}`);
    show(this.node, true);
    this.focus();
  }
  focus() { this.input.focus(); }
  hide() {
    const hadFocus = document.activeElement === this.input;
    this.input.value = '';
    show(this.node, false);
    if (hadFocus) this.back();
  }
  press(event) {
    if (event.key !== 'Enter' && event.key !== 'Escape') return;
    event.preventDefault();
    event.stopPropagation();
    if (event.key === 'Escape') this.hide();
    else if (!event.repeat && this.input.value.trim().toUpperCase() === this.word) this.act();
    else this.refuse(this.input.value.trim());
  }
  refuse(typed) {
    set(this.words, `${typed ? `That was ${typed}` : 'Nothing was typed'}. ${this.asks}`);
    this.input.select();
  }
}
