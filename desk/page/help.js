// What `?` opens: the keys, and what the page does and never does, in a few words.
import {h} from './dom.js';

const everybody = [
  ['?', 'This help'], ['F4', 'Prices as decimals or in 32nds; every field reads both'], ['F8', 'The table of what is open, and back; in it \u2191 \u2193 Home End, and Enter for the card'],
  ['Tab', 'To the next field or button; Enter or Space presses it'], ['Escape', 'Takes a first press back, clears what was typed, or closes this']];
const keys = {
  investor: [
    ['F2', 'The ticket: bond, side (B or S), quantity, deadline, dealers; Enter asks'], ['F3', 'The best quote of the request that ends next'],
    ['\u2191 \u2193', 'From quote to quote'], ['Enter', 'Chooses a quote; Enter again within four seconds hits it'], ...everybody],
  dealer: [
    ['F2', 'The request without a quote that ends next'], ['Enter', 'Sends the price; your first on a bond and side asks again, and one that is far off wants a typed word'],
    ['\u2191 \u2193', 'One step of the bond\u2019s grid'], ['F9', 'Cancels all quotes of your firm, and stops its programs'], ...everybody]};
const words = {
  investor: [
    ['Ask', 'Type a part of the bond\u2019s name or ISIN. A quantity is nominal: 2,000,000, 2m or 500k. A deadline is a time from now: 90, 2:00, 5m. The line above the button reads it back.'],
    ['Many at once', '\u201cPaste a list\u201d takes a bond, a side and a quantity a line. F3 and a press on a line lead to the card of its request.'],
    ['Hit', 'Two presses. None counts within half a second of a change, nor on a button that has just come to its place. A worse price takes the first press back.'],
    ['The end', 'A request ends by a hit, a pass (two presses) or its deadline. \u201cHere today\u201d is what this firm saw and did, and no market\u2019s level.']],
  dealer: [
    ['Quote', 'OFFER where the investor buys, BID where it sells. Another price replaces a live one. A quote stands to the deadline, or for the time that you choose. Where the bond has data, 4.25% becomes the nearest price, and Enter sends nothing yet.'],
    ['Colleagues', 'Claim a request to tell others that it is yours. Nobody is kept from it: their first press says whose it is.'],
    ['Decline', 'Two presses, and it can\u2019t be taken back. A withdrawal is never refused.'],
    ['Exposure', 'The nominal of all live quotes of the firm. One whose validity is over is stale: nobody can hit it, and it counts until you replace or withdraw it.']]};
const always = [
  ['Sent is not done', 'Nothing is shown as done that the venue did not confirm. A request, a quote or a hit that could not be delivered within five seconds never is.'],
  ['Alerts', 'A sound or a notification for each kind of news that you switch on. No browser plays a sound before your first press on the page.']];

export class Help {
  constructor() {
    this.button = h('button', {type: 'button', id: 'help-button', 'aria-label': 'Help', 'aria-haspopup': 'dialog', title: 'Help', onclick: () => this.open()}, '?');
    this.close = h('button', {className: 'strong'}, 'Close');
    this.node = h('dialog', {id: 'help', 'aria-labelledby': 'help-title'});
  }
  begin(role) {
    const lines = keys[role].map(([key, does]) => h('tr', {}, h('th', {scope: 'row'}, h('kbd', {}, key)), h('td', {}, does)));
    const parts = [...words[role], ...always].flatMap(([name, text]) => [h('dt', {}, name), h('dd', {}, text)]);
    this.node.replaceChildren(h('h2', {id: 'help-title'}, role === 'dealer' ? 'Help for a dealer' : 'Help for an investor'),
      h('table', {className: 'keys'}, h('thead', {className: 'unseen'}, h('tr', {}, h('th', {scope: 'col'}, 'Key'), h('th', {scope: 'col'}, 'What it does'))), h('tbody', {}, ...lines)),
      h('dl', {}, ...parts), h('form', {method: 'dialog', className: 'foot'}, this.close));
  }
  open() {
    if (this.node.open) return;
    this.node.showModal();
    this.close.focus();
  }
  // Whether a question mark asks for help here: it is a part of no price, quantity or bond, and may be one of other texts.
  isAsked({key, target}) {
    return key === '?' && !target.closest?.('textarea, [type=search], [type=password], .group-name, .login');
  }
}
