// The page over the library: what stays of a module, what goes, and why. The library is at work in a worker (worker.js), so that the page answers meanwhile.
import { Group } from './keys.js';
import { squarified, withStrip } from './treemap.js';

const ROWS_AT_ONCE = 200;
// So many exports can be seen at once, and need no search.
const FEW_EXPORTS = 12;
// Of an item that is exported under more names so many are told.
const MOST_EXPORTS = 3;
// A box of fewer square pixels is too small to be hit: its function is among the rest.
const LEAST_BOX = 150;
const MOST_OF_A_NAME = 400;
// What doesn't answer while a module is at work; the exports do.
const RESULTS = ['sizes', 'items', 'functions'], ALL_RESULTS = [...RESULTS, 'exports'];
const KINDS = {
  functions: 'Functions',
  tables: 'Tables',
  memories: 'Memories',
  tags: 'Tags',
  globals: 'Globals',
  elements: 'Element segments',
  data: 'Data segments',
};
const ROOTS = {
  start: () => 'the start function',
  active: ({ kind }) => `a segment that fills a ${kind === 'data' ? 'memory' : 'table'}`,
  declared: () => 'a segment that declares functions',
};

const byId = (id) => document.getElementById(id);
const numbers = new Intl.NumberFormat('en');
const shares = new Intl.NumberFormat('en', { style: 'percent', maximumFractionDigits: 1 });
const count = (value) => numbers.format(value);
const counted = (value, one, many = `${one}s`) => `${count(value)} ${value === 1 ? one : many}`;
// A name may be as long as the module.
const shortened = (name) => (name.length > MOST_OF_A_NAME ? `${name.slice(0, MOST_OF_A_NAME)}…` : name);
const nameOf = (it) => (it.name ? shortened(it.name) : `function ${it.index}`);
const sized = (it) => `${nameOf(it)}, ${counted(it.size, 'byte')}`;

// Words with a hyphen are attributes, all others properties.
function element(tag, words = {}, ...children) {
  const made = document.createElement(tag);
  for (const [word, value] of Object.entries(words)) {
    if (word.includes('-')) made.setAttribute(word, value);
    else made[word] = value;
  }
  made.append(...children);
  return made;
}

// A name stands for itself, whatever way it is written in and whatever signs it has.
const isolated = (text, className = '') => element('bdi', { className }, text);

// ---- The worker

// A worker that is begun from such a text has the policy of this page; one that is begun from a file would have that of the server alone.
const BEGINNING = URL.createObjectURL(new Blob([`import ${JSON.stringify(new URL('worker.js', import.meta.url).href)};`], { type: 'text/javascript' }));

let worker = null, number = 0;
// The number of what was asked last under each word, and those that wait for an answer. What is told under an earlier number is passed over.
const asked = { take: 0, rows: 0, ticks: 0, why: 0 }, open = new Set();

// What the worker that was there has at hand is given up.
function begin() {
  worker?.terminate();
  open.clear();
  worker = new Worker(BEGINNING, { type: 'module' });
  worker.onmessage = ({ data }) => hear(data);
  worker.onerror = () => {
    worker = null;
    refuse('The library could not be loaded from beside this page. Load the page again.');
  };
}

function ask(word, what) {
  number++;
  asked[word] = number;
  open.add(number);
  worker.postMessage({ word, number, ...what });
}

function hear(told) {
  if (told.last) open.delete(told.number);
  if (told.number === asked[told.asked]) HEARD[told.word](told);
}

// Questions of one word, of which at most one is open, so that quick typing makes no queue: of those that wait the last is asked.
function questions(word) {
  let wanted = null;
  const send = () => {
    if (wanted === null || open.has(asked[word])) return;
    ask(word, wanted);
    wanted = null;
  };
  return { wish: (what) => ((wanted = what), send()), goOn: send };
}

// ---- A module is taken

// The file, its number, and what was done to the ticks of its exports, which are all there at first.
let file = null, fileNumber = 0, steps = [];

const options = () => Object.fromEntries(['names', 'producers', 'legacy'].map((word) => [word, byId(word).checked]));

function takeAgain() {
  if (worker === null || open.size > 0) begin();
  byId('work').hidden = false;
  byId('refused').hidden = true;
  for (const id of RESULTS) byId(id).inert = true;
  byId('status').textContent = `At work on ${file.name}, ${counted(file.size, 'byte')}.`;
  asked.ticks = 0;
  ask('take', { id: fileNumber, file, options: options(), steps });
}

function take(files) {
  if (files.length === 0) return;
  file = files[0];
  fileNumber++;
  for (const id of ALL_RESULTS) byId(id).hidden = true;
  byId('rows').replaceChildren();
  byId('search').value = '';
  resetTicks();
  resetWhy();
  takeAgain();
}

function show(id) {
  byId(id).hidden = false;
  byId(id).inert = false;
}

// ---- Refusals, in words

const UNREADABLE = 'The file could not be read. It may be a folder, or it was changed or moved since.';
const REASONS = {
  INVALID: 'It is no WebAssembly module that keeps the rules. '
    + 'Not taken are components, stack switching, shared-everything threads and custom descriptors.',
  TOO_LARGE: 'A count or a size in the smaller module would pass 32 bits.',
  NO_MEMORY: 'There isn’t enough memory for it here: the library has at most 4 GB, and the module with all that is made of it has to stand there.',
  TRAPPED: 'The library stopped in the midst of its work. That is a mistake in it, or the browser has too little room for it.',
  NotReadableError: UNREADABLE,
  NotFoundError: UNREADABLE,
};

// The library's words, as they stand in a sentence.
const sentence = (text) => `${text[0].toUpperCase()}${text.slice(1).replaceAll("'", '’')}.`;

/** What is wrong with a module that is refused: by the code of the library's error, what the library finds, and the choices. */
function wordsOf(error, { legacy }) {
  if (error.code !== 'INVALID') return REASONS[error.code] ?? `It could not be taken: ${error.message}.`;
  if (error.fault?.kind === 'header') return sentence(error.fault.text);
  const fault = error.fault === null ? '' : ` What is wrong: ${error.fault.text.replaceAll("'", '’')}.`;
  const choice = legacy ? '' : ' As you chose, legacy exceptions aren’t taken either.';
  return `${REASONS.INVALID}${fault}${choice}`;
}

function refuse(words) {
  byId('work').hidden = true;
  byId('status').textContent = file === null ? '' : `${file.name} is refused.`;
  for (const id of ALL_RESULTS) byId(id).hidden = true;
  byId('refused').hidden = false;
  byId('reason').textContent = words;
}

function onRefused(told) {
  if (told.asked === 'take') refuse(wordsOf(told, options()));
  else if (told.asked === 'why') tellWhy('why-told', element('p', {}, REASONS[told.code] ?? told.message));
}

// ---- Sizes

function difference(before, after) {
  const less = before - after;
  if (less > 0) return `${counted(less, 'byte')} ${less === 1 ? 'goes' : 'go'}, ${shares.format(less / before)}`;
  return less === 0 ? 'It is as long as before' : `That is ${counted(-less, 'byte')} more: what is added or numbered anew outweighs what goes`;
}

const outputName = () => `${file.name.replace(/\.wasm$/i, '')}.gc.wasm`;

function onSmaller({ before, after, blob, took, version, counts }) {
  const told = [`: ${counted(before, 'byte')} come out as `, element('strong', {}, count(after)), `. ${difference(before, after)}.`];
  if (counts !== null && counts.ticked < counts.all) told.push(` ${share(counts)} ${counts.ticked === 1 ? 'stays' : 'stay'}.`);
  byId('status').replaceChildren(isolated(file.name), ...told);
  byId('length').style.width = `${Math.min(100, (100 * after) / before)}%`;
  byId('took').textContent = `in place of ${count(before)}, made in ${(took / 1000).toFixed(2)}\u00a0s`;
  byId('version').textContent = ` ${version}`;
  const link = byId('save');
  if (link.href) URL.revokeObjectURL(link.href);
  link.href = URL.createObjectURL(blob);
  link.download = outputName();
  link.replaceChildren('Download ', isolated(outputName()), `, ${counted(after, 'byte')}`);
  show('sizes');
}

// ---- What stays and what goes

function bar(kept, dropped) {
  const whole = element('div', { className: 'bar' });
  for (const [className, part] of [['stay', kept], ['go', dropped]]) {
    const piece = element('span', { className });
    piece.style.width = `${(100 * part) / (kept + dropped)}%`;
    if (part > 0) whole.append(piece);
  }
  return whole;
}

function rowOfKind([kind, { kept, dropped }]) {
  const cells = [kept, dropped].map((it) => element('td', { className: 'number' }, count(it)));
  const bars = element('td', { className: 'bars', 'aria-hidden': 'true' }, bar(kept, dropped));
  return element('tr', { className: kept + dropped === 0 ? 'none' : '' }, element('th', { scope: 'row' }, KINDS[kind] ?? kind), ...cells, bars);
}

function onReport({ report: { bytes, ...kinds } }) {
  byId('kinds').replaceChildren(...Object.entries(kinds).map(rowOfKind));
  byId('bytes').textContent = `The bodies of functions that go have ${counted(bytes.dropped, 'byte')}, debug information has ${count(bytes.debug)}.`;
  show('items');
}

// ---- The exports, and which of them are ticked

// What is left with all ticks, by the other choices.
const withAll = new Map();
const exportsAsked = questions('ticks');
const ticks = new Group(byId('ticks'));

const share = ({ ticked, all }) => `${count(ticked)} of ${counted(all, 'export')}`;

function resetTicks() {
  steps = [];
  withAll.clear();
  byId('ticks').replaceChildren();
  byId('exports-search').value = '';
  ticks.hold([]);
}

function askTicks(from = 0, number = ROWS_AT_ONCE) {
  exportsAsked.wish({ search: byId('exports-search').value, from, count: number });
}

function onExports({ after, ticked, all }) {
  const key = JSON.stringify(options());
  if (ticked === all) withAll.set(key, after);
  const more = withAll.has(key) && ticked < all ? `, ${counted(withAll.get(key) - after, 'byte')} fewer than with all` : '';
  byId('left').replaceChildren(`${share({ ticked, all })} ${ticked === 1 ? 'is' : 'are'} ticked: `, element('strong', {}, counted(after, 'byte')), ` are left${more}.`);
  byId('exports-both').hidden = all === 0;
  byId('exports-none').hidden = all > 0;
  byId('exports-form').hidden = all <= FEW_EXPORTS;
  show('exports');
  if (all > 0) askTicks(0, Math.max(ROWS_AT_ONCE, ticks.parts.length));
}

function rowOfExport({ at, kind, index, name, isTicked }) {
  const box = element('input', { type: 'checkbox', checked: isTicked });
  box.dataset.at = at;
  const shown = element('span', {}, isolated(shortened(name), 'name'), ' ', element('small', {}, `${kind} ${index}`));
  return element('li', {}, element('label', {}, box, shown));
}

const areShown = (rows) => rows.length === ticks.parts.length && rows.every((it, place) => Number(ticks.parts[place].dataset.at) === it.at);

// Where they are shown already, they stay, and with them the focus.
function showTicks(rows, from) {
  if (from === 0 && areShown(rows)) return rows.forEach((it, place) => (ticks.parts[place].checked = it.isTicked));
  const made = rows.map(rowOfExport);
  if (from === 0) byId('ticks').replaceChildren(...made);
  else byId('ticks').append(...made);
  ticks.hold([...byId('ticks').querySelectorAll('input')], from === 0 ? 0 : ticks.current);
}

function onTicks({ rows, from, total }) {
  showTicks(rows, from);
  const isAll = byId('exports-search').value.trim() === '', those = `the ${count(total)} found`;
  byId('exports-found').textContent = isAll ? '' : `${counted(total, 'export')} found.`;
  byId('tick-all').textContent = isAll ? 'Tick all' : `Tick ${those}`;
  byId('tick-none').textContent = isAll ? 'Tick none' : `Tick none of ${those}`;
  for (const id of ['tick-all', 'tick-none']) byId(id).disabled = total === 0;
  offerMore(byId('more-exports'), ticks.parts.length, total, ticks.parts[from]);
  exportsAsked.goOn();
}

function onTick({ target }) {
  steps.push({ at: Number(target.dataset.at), isTicked: target.checked });
  takeAgain();
}

// All that are found, whether they are shown or not. A step that says something of all makes those before it void.
function tickFound(isTicked) {
  const search = byId('exports-search').value;
  if (search.trim() === '') steps = [];
  steps.push({ search, isTicked });
  for (const it of ticks.parts) it.checked = isTicked;
  takeAgain();
}

// ---- The functions as boxes

let functions = { count: 0, size: 0, largest: [] };
const boxes = new Group(byId('map'));

function onFunctions(told) {
  functions = told;
  const none = told.count === 0;
  byId('functions-told').textContent = none
    ? 'No function with a body stays.'
    : `${counted(told.count, 'function')} with a body ${told.count === 1 ? 'stays' : 'stay'}, ${counted(told.size, 'byte')} of code in all.`;
  byId('both').hidden = none;
  show('functions');
  boxes.hold([]);
  drawMap();
  askRows();
  if (chosen !== null) ask('why', { index: chosen });
}

// How many of the largest functions have a box that can be hit.
function countOfBoxes(area) {
  const least = (LEAST_BOX * functions.size) / area;
  const small = functions.largest.findIndex((it) => it.size < least);
  return small === -1 ? functions.largest.length : small;
}

function buttonOf(label, words, box, level) {
  const button = element('button', { type: 'button', className: `box level-${level}`, 'aria-label': label }, ...words);
  Object.assign(button.style, Object.fromEntries(Object.entries(box).map(([side, value]) => [side, `${value}px`])));
  button.classList.toggle('bare', box.width < 48 || box.height < 20);
  button.classList.toggle('low', box.height < 36);
  return button;
}

function buttonOfFunction(it, box) {
  const level = Math.min(3, Math.floor(Math.log2(functions.largest[0].size / it.size)));
  const button = buttonOf(sized(it), [isolated(nameOf(it)), element('small', {}, count(it.size))], box, level);
  button.dataset.index = it.index;
  return button;
}

function buttonOfRest(left, size, box) {
  const words = counted(left, 'smaller function');
  const button = buttonOf(`${words}, ${counted(size, 'byte')}: to the list`, [element('span', {}, words), element('small', {}, count(size))], box, 'rest');
  button.dataset.rest = '';
  return button;
}

function drawMap() {
  const map = byId('map'), hadFocus = map.contains(document.activeElement);
  const room = { left: 0, top: 0, width: map.clientWidth, height: map.clientHeight };
  if (functions.count === 0 || room.width === 0) return;
  const shown = functions.largest.slice(0, countOfBoxes(room.width * room.height));
  const rest = functions.size - shown.reduce((sum, it) => sum + it.size, 0);
  const [main, strip] = withStrip(room, rest / functions.size);
  const places = squarified(shown.map((it) => it.size), main), buttons = shown.map((it, at) => buttonOfFunction(it, places[at]));
  if (rest > 0) buttons.push(buttonOfRest(functions.count - shown.length, rest, strip));
  map.replaceChildren(...buttons);
  boxes.hold(buttons, boxes.current);
  if (hadFocus) boxes.part.focus();
  markChosen();
}

function onMapClick({ target }) {
  const button = target.closest('button');
  if (button === null) return;
  boxes.moveTo(button);
  if (button.dataset.rest === undefined) return askWhy(Number(button.dataset.index), button.firstChild.textContent, button);
  byId('search').focus();
  byId('search-form').scrollIntoView({ block: 'start' });
}

const onMapPointed = ({ target }) => (byId('caption').textContent = target.closest('button')?.getAttribute('aria-label') ?? '');

// ---- The functions as a list

let order = { by: 'size', falling: true };
const functionsAsked = questions('rows');

function askRows(from = 0) {
  functionsAsked.wish({ search: byId('search').value, ...order, from, count: ROWS_AT_ONCE });
}

function rowOf(it) {
  const button = element('button', { type: 'button', className: it.name ? '' : 'unnamed' }, isolated(nameOf(it)));
  const cell = (text) => element('td', { className: 'number' }, text);
  const row = element('tr', {}, cell(String(it.index)), element('td', {}, button), cell(count(it.size)));
  row.dataset.index = it.index;
  return row;
}

function onRows({ rows, from, total, count: all }) {
  const shown = from + rows.length, made = rows.map(rowOf);
  if (from === 0) byId('rows').replaceChildren(...made);
  else byId('rows').append(...made);
  byId('list').hidden = total === 0;
  const found = total === all ? counted(all, 'function') : `${count(total)} of ${counted(all, 'function')}`;
  byId('found').textContent = `${found}${shown < total ? `, ${count(shown)} of them shown` : ''}.`;
  offerMore(byId('more'), shown, total, made[0]?.querySelector('button'));
  markChosen();
  functionsAsked.goOn();
}

// Where there are no more, the keys go from the button, which goes, to the first of the last rows.
function offerMore(more, shown, total, first) {
  const hadFocus = document.activeElement === more;
  more.hidden = shown === total;
  more.textContent = `Show ${count(Math.min(ROWS_AT_ONCE, total - shown))} more`;
  more.dataset.from = shown;
  if (hadFocus && more.hidden) first?.focus();
}

// Not while the list is about to be another one.
const onMore = (word, askMore) => ({ target }) => open.has(asked[word]) || askMore(Number(target.dataset.from));

function onSort({ currentTarget: head }) {
  const by = head.dataset.by;
  order = { by, falling: order.by === by ? !order.falling : by === 'size' };
  for (const it of document.querySelectorAll('#list th')) it.setAttribute('aria-sort', it !== head ? 'none' : order.falling ? 'descending' : 'ascending');
  askRows();
}

function onListClick({ target }) {
  const row = target.closest('tbody tr'), button = row?.querySelector('button');
  if (button) askWhy(Number(row.dataset.index), button.textContent, button);
}

// ---- Why one stays

let chosen = null, cameFrom = null;
const items = new Group(byId('why-more'));

function markChosen() {
  for (const it of document.querySelectorAll('#map [data-index], #rows tr')) {
    const button = it.matches('tr') ? it.querySelector('button') : it, isChosen = Number(it.dataset.index) === chosen;
    it.classList.toggle('chosen', isChosen);
    if (isChosen) button.setAttribute('aria-current', 'true');
    else button.removeAttribute('aria-current');
  }
}

function resetWhy() {
  chosen = cameFrom = null;
  asked.why = 0;
  byId('why-heading').textContent = 'Why does a function stay?';
  tellWhy('why-told', element('p', {}, 'Choose one, as a box or in the list.'));
  tellWhy('callers');
  byId('back').hidden = true;
}

function askWhy(index, name, from) {
  chosen = index;
  cameFrom = from;
  markChosen();
  byId('why-heading').replaceChildren('Why does ', isolated(name), ' stay?');
  items.hold([]);
  tellWhy('why-told', element('p', {}, 'Looking for a chain that leads to it.'));
  tellWhy('callers');
  byId('back').hidden = false;
  byId('why').focus({ preventScroll: true });
  byId('why').scrollIntoView({ block: 'nearest' });
  ask('why', { index });
}

function namesOf(exports) {
  const shown = exports.slice(0, MOST_EXPORTS).flatMap((it, at) => [at === 0 ? '“' : '”, “', isolated(shortened(it))]);
  return ['exported as ', ...shown, exports.length > MOST_EXPORTS ? `” and ${counted(exports.length - MOST_EXPORTS, 'more name')}` : '”'];
}

// A function with a body can be asked about.
function itemOf({ kind, index, name, size }) {
  const words = `${kind} ${index}`;
  if (size === null) return element('span', { className: 'item' }, words);
  const button = element('button', { type: 'button', className: 'item', 'aria-label': `${words}: why does it stay?` }, words);
  Object.assign(button.dataset, { index, name: nameOf({ index, name }) });
  return button;
}

function linkOf(it, root = null) {
  const name = it.name ? [' ', isolated(shortened(it.name), 'name')] : [];
  const size = it.size === null ? [] : [' ', element('small', {}, counted(it.size, 'byte'))];
  const words = it.exports.length > 0 ? namesOf(it.exports) : [ROOTS[root]?.(it)].filter(Boolean);
  const reason = words.length === 0 ? [] : [element('small', { className: 'root' }, root === null ? '' : 'where it begins: ', ...words)];
  return element('li', {}, itemOf(it), ...name, ...size, ...reason);
}

function chainOf({ root, first, left, behind }) {
  const links = first.map((it, at) => linkOf(it, at === 0 ? root : null));
  if (left > 0) links.push(element('li', { className: 'left' }, `${counted(left, 'item')} between them`));
  return [...links, ...behind.map((it) => linkOf(it))];
}

// What was told already stays, so that readers don't tell it again.
function tellWhy(id, ...words) {
  const made = element('div', {}, ...words);
  if (made.textContent === byId(id).textContent) return;
  byId(id).replaceChildren(...made.childNodes);
  items.hold([...byId('why-more').querySelectorAll('button')], items.current);
}

function onWhy({ index, alone, ...told }) {
  if (told.root === null) return tellWhy('why-told', element('p', {}, `It doesn’t: nothing that stays leads to function ${index}.`));
  const links = chainOf(told), words = links.length === 1 ? 'Nothing else has to lead to it:' : 'Each of these refers to the one below it:';
  tellWhy('why-told', element('p', {}, words), element('ol', { className: 'chain' }, ...links), ...(alone === null ? [] : [goneWith(alone)]));
  if (byId('why').contains(document.activeElement)) byId('why').scrollIntoView({ block: 'nearest' });
}

// What would go if its body did nothing.
function goneWith({ functions: number, bytes }) {
  if (number === 1) return element('p', {}, `No other function would go with it; its own body has ${counted(bytes, 'byte')}.`);
  const others = element('strong', {}, counted(number - 1, 'other function'));
  return element('p', {}, 'With it would go ', others, `: ${counted(bytes, 'byte')} of code, its own among them.`);
}

function onCallers({ callers, left }) {
  if (byId('why-told').querySelector('.chain') === null) return tellWhy('callers');
  const links = callers.map((it) => linkOf(it));
  if (left > 0) links.push(element('li', { className: 'left' }, `and ${counted(left, 'more item')}`));
  const words = links.length === 0 ? 'Nothing that stays refers to it directly.' : 'What refers to it directly:';
  tellWhy('callers', element('p', {}, words), ...(links.length === 0 ? [] : [element('ul', {}, ...links)]));
}

function onWhyClick({ target }) {
  const button = target.closest('.item[data-index]');
  if (button) askWhy(Number(button.dataset.index), button.dataset.name, cameFrom);
}

function back() {
  const again = cameFrom?.isConnected ? cameFrom : boxes.part;
  again?.focus();
  again?.scrollIntoView({ block: 'nearest' });
}

// ---- What the page hears

const HEARD = {
  smaller: onSmaller,
  exports: onExports,
  report: onReport,
  functions: onFunctions,
  done: () => (byId('work').hidden = true),
  refused: onRefused,
  rows: onRows,
  ticks: onTicks,
  late: () => {},
  why: onWhy,
  callers: onCallers,
};

function listenToFiles() {
  const drop = byId('drop');
  byId('pick').addEventListener('change', ({ target }) => {
    take([...target.files]);
    // So that the same file can be chosen again.
    target.value = '';
  });
  const hasFiles = ({ dataTransfer }) => dataTransfer.types.includes('Files');
  document.addEventListener('dragover', (event) => {
    if (!hasFiles(event)) return;
    event.preventDefault();
    event.dataTransfer.dropEffect = 'copy';
    drop.classList.add('over');
  });
  document.addEventListener('dragleave', ({ relatedTarget }) => relatedTarget === null && drop.classList.remove('over'));
  document.addEventListener('drop', (event) => {
    if (!hasFiles(event)) return;
    event.preventDefault();
    drop.classList.remove('over');
    take([...event.dataTransfer.files]);
  });
  byId('choices').addEventListener('change', () => file && takeAgain());
}

function listenToExports() {
  byId('ticks').addEventListener('change', onTick);
  byId('tick-all').addEventListener('click', () => tickFound(true));
  byId('tick-none').addEventListener('click', () => tickFound(false));
  byId('exports-search').addEventListener('input', () => askTicks());
  byId('exports-form').addEventListener('submit', (event) => event.preventDefault());
  byId('more-exports').addEventListener('click', onMore('ticks', askTicks));
}

function listenToFunctions() {
  byId('map').addEventListener('click', onMapClick);
  byId('map').addEventListener('pointerover', onMapPointed);
  byId('map').addEventListener('focusin', onMapPointed);
  new ResizeObserver(drawMap).observe(byId('map'));
  byId('search').addEventListener('input', () => askRows());
  byId('search-form').addEventListener('submit', (event) => event.preventDefault());
  byId('more').addEventListener('click', onMore('rows', askRows));
  byId('rows').addEventListener('click', onListClick);
  for (const head of document.querySelectorAll('#list th')) head.addEventListener('click', onSort);
  byId('back').addEventListener('click', back);
  byId('why').addEventListener('click', onWhyClick);
  byId('why').addEventListener('keydown', ({ key }) => key === 'Escape' && back());
}

listenToFiles();
listenToExports();
listenToFunctions();
begin();
byId('unready').remove();
