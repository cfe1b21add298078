// Makes elements. Texts are only ever set as text: nothing that a firm names itself can become markup.

export function h(tag, properties = {}, ...children) {
  const node = document.createElement(tag);
  for (const [key, value] of Object.entries(properties)) {
    if (key.startsWith('on')) node.addEventListener(key.slice(2), value);
    else if (key in node && key !== 'list') node[key] = value;
    else node.setAttribute(key, value);
  }
  node.append(...children);
  return node;
}

const thirtySeconds = /(?<![\d-])(\d{1,6}-\d\d[\d+]?)(?![\d-])/; // 99-16+

// A text whose prices in 32nds are whole: a line would end behind their hyphen.
export const whole = text => text.split(thirtySeconds).map((part, at) => at % 2 ? h('span', {className: 'whole'}, part) : part);

// What is not changed is not touched: a screen reader does not speak it again.
export function set(node, text) {
  if (node.textContent === text) return;
  if (thirtySeconds.test(text)) node.replaceChildren(...whole(text));
  else node.textContent = text;
}

export function show(node, is) {
  if (node.hidden === is) node.hidden = !is;
}

// What scrolls: the head stays above it, and the strip and the foot stay below it, so that nothing covers it.
const room = () => document.getElementById('body');

// A button whose press can do nothing now, and still says why.
export function looksDead(button, is) {
  if (is) button.setAttribute('aria-disabled', 'true');
  else button.removeAttribute('aria-disabled');
}

// What can't be pressed any more loses the keys to nowhere: its card takes them.
export function keepFocus(node, change) {
  const focus = node.contains(document.activeElement) ? document.activeElement : null;
  change();
  if (focus && (focus.disabled || !focus.checkVisibility())) node.focus({preventScroll: true});
}

// Whether all of it is on the screen.
export function isInSight(node) {
  const {top, bottom} = node.getBoundingClientRect(), view = room().getBoundingClientRect();
  return top >= view.top && bottom <= view.bottom;
}

// Whether its middle is on the screen. Of a card whose head is cut off at the top nothing is known; one that is cut off at
// the foot has it.
export function isHalfInSight(node) {
  const {top, bottom} = node.getBoundingClientRect(), view = room().getBoundingClientRect(), middle = (top + bottom) / 2;
  return middle > view.top && middle < view.bottom;
}

// Where it stands, whatever was scrolled.
export function placeOf(node) {
  const {left, top, width} = node.getBoundingClientRect(), {scrollLeft, scrollTop} = room();
  return {x: left + scrollX + scrollLeft, y: top + scrollY + scrollTop, is: width > 0};
}

// Puts the nodes in this order. Those that stand right are not moved, and the focus stays.
export function arrange(parent, nodes) {
  const focus = document.activeElement, stays = new Set(nodes);
  let moved = false;
  for (const node of [...parent.children]) if (!stays.has(node)) node.remove();
  nodes.toReversed().reduce((behind, node) => { // from the end, so that what goes there moves alone
    if (node.parentNode !== parent || node.nextSibling !== behind) {
      parent.insertBefore(node, behind);
      moved = true;
    }
    return node;
  }, null);
  if (moved && focus !== document.activeElement && parent.contains(focus)) {
    focus.focus({preventScroll: true});
  }
}
