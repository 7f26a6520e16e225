// Keys among the parts of a group, which are buttons or boxes to tick: Tab leads to one of them, and arrow keys, Home and End from there to others. page.js has
// such groups.
import { nearest } from './treemap.js';

const WAYS = { ArrowLeft: [-1, 0], ArrowRight: [1, 0], ArrowUp: [0, -1], ArrowDown: [0, 1] };

export class Group {
  constructor(element) {
    this.element = element;
    this.parts = [];
    this.current = 0;
    element.addEventListener('keydown', (event) => this.onKey(event));
    element.addEventListener('focusin', ({ target }) => this.moveTo(target));
  }

  /** These are its parts from now on; Tab leads to the one at this place, or to the last where there are fewer. */
  hold(parts, current = 0) {
    this.parts = parts;
    this.current = Math.max(0, Math.min(current, parts.length - 1));
    parts.forEach((it, at) => (it.tabIndex = at === this.current ? 0 : -1));
  }

  /** The part to which Tab leads. */
  get part() {
    return this.parts[this.current];
  }

  /** Tab leads to this part. */
  moveTo(part) {
    const at = this.parts.indexOf(part);
    if (at === -1) return;
    this.part.tabIndex = -1;
    this.current = at;
    part.tabIndex = 0;
  }

  // Where a key leads to, if it leads anywhere.
  ledTo({ key, altKey, ctrlKey, metaKey }) {
    if (altKey || ctrlKey || metaKey || this.parts.length === 0) return undefined;
    const ends = { Home: 0, End: this.parts.length - 1 };
    return WAYS[key] ? nearest(this.parts.map((it) => it.getBoundingClientRect()), this.current, WAYS[key]) : ends[key];
  }

  onKey(event) {
    const at = this.ledTo(event);
    if (at === undefined) return;
    event.preventDefault();
    this.parts[at].focus();
  }
}
