// The library at work for page.js, in a worker. What is asked: `take`, of a file under some options and with some of its exports; and of the file that was taken
// `rows`, a part of the list of its functions, `ticks`, a part of that of its exports, and `why`, a chain that leads to a function, what would go with it, and what
// refers to it. What is told names what was asked, and its number. The lists stay here, since they may have a million rows.
import { load, MulkaveshError } from './mulkavesh.js';

const MOST_BOXES = 500;
// So many links from either end of a chain, and so many items that refer to one.
const ENDS_OF_A_CHAIN = 100;
const MOST_CALLERS = 100;

const library = load();
// The file that was taken, by its number, and its exports, each with its place among them; and of these those that stay, as the library's options.
let taken = null, bytes = null, exported = null, ticked = [], roots = {}, functions = [];
const orders = new Map();
// What was asked last under each word.
const newest = {};

const COMPARED = {
  index: (one, other) => one.index - other.index,
  size: (one, other) => one.size - other.size || other.index - one.index,
  // Those without a name behind all others.
  name: (one, other) => (one.name === null) - (other.name === null) || (one.name < other.name ? -1 : +(one.name > other.name)) || one.index - other.index,
};

function ordered(by) {
  if (!orders.has(by)) orders.set(by, [...functions].sort(COMPARED[by]));
  return orders.get(by);
}

function forget() {
  taken = bytes = exported = null;
  functions = [];
  orders.clear();
}

// ---- What is exported, and which of it is ticked

// Stars of a name stand for themselves.
const nameAlone = ({ name }) => name.replaceAll('*', '\\*');

function rootsBy(ticks) {
  const kept = exported.filter((_, at) => ticks[at]), gone = exported.filter((_, at) => !ticks[at]);
  if (gone.length === 0) return {};
  if (kept.length === 0) return { drop: '*' };
  return kept.length < gone.length ? { keep: kept.map(nameAlone) } : { drop: gone.map(nameAlone) };
}

// Each step sets or takes the tick of one, by its place, or of all that a search finds.
function tick(all, steps) {
  ticked = all.map(() => true);
  for (const { at, search, isTicked } of steps) {
    const those = at === undefined ? matching(all, search) : [all[at]];
    for (const it of those) ticked[it.at] = isTicked;
  }
}

const countOfTicks = () => ({ all: exported.length, ticked: ticked.filter(Boolean).length });

// ---- What is asked

function tellFunctions(tell) {
  const size = functions.reduce((sum, it) => sum + it.size, 0);
  tell('functions', { count: functions.length, size, largest: ordered('size').slice(-MOST_BOXES).reverse() });
}

// First the sizes and the smaller module, which are wanted first, and then the rest, each as it comes.
async function take({ id, file, options, steps }, tell) {
  if (taken !== id) forget();
  bytes ??= new Uint8Array(await file.arrayBuffer());
  taken = id;
  const { gc, report, exports, list, version } = await library, isChosen = steps.length > 0;
  const findExports = () => (exported ??= exports(bytes, options).map((it, at) => ({ ...it, at })));
  if (isChosen) tick(findExports(), steps);
  roots = isChosen ? { ...options, ...rootsBy(ticked) } : options;
  const begun = performance.now(), smaller = gc(bytes, roots);
  const took = performance.now() - begun, blob = new Blob([smaller], { type: 'application/wasm' });
  tell('smaller', { before: bytes.length, after: smaller.length, blob, took, version: version(), counts: isChosen ? countOfTicks() : null });
  tick(findExports(), steps);
  tell('exports', { after: smaller.length, ...countOfTicks() });
  tell('report', { report: report(bytes, roots) });
  functions = list(bytes, roots);
  orders.clear();
  tellFunctions(tell);
  tell('done', { last: true });
}

// Those whose name has the text as a part, in whatever case, or whose index is this number.
function matching(all, search) {
  const part = search.trim().toLowerCase();
  if (part === '') return all;
  return all.filter((it) => it.name?.toLowerCase().includes(part) || String(it.index) === part);
}

function rows({ search, by, falling, from, count }, tell) {
  const found = matching(ordered(by), search), total = found.length;
  const part = falling ? found.slice(Math.max(0, total - from - count), total - from).reverse() : found.slice(from, from + count);
  tell('rows', { rows: part, from, total, count: functions.length, last: true });
}

// Where the exports aren't there yet, the page asks again when they are.
function ticks({ search, from, count }, tell) {
  if (exported === null) return tell('late', { last: true });
  const found = matching(exported, search), part = found.slice(from, from + count);
  tell('ticks', { rows: part.map((it) => ({ ...it, isTicked: ticked[it.at] })), from, total: found.length, last: true });
}

// Of a long chain both ends.
function endsOf(chain) {
  const left = chain.length - 2 * ENDS_OF_A_CHAIN;
  return left > 0 ? { first: chain.slice(0, ENDS_OF_A_CHAIN), left, behind: chain.slice(-ENDS_OF_A_CHAIN) } : { first: chain, left: 0, behind: [] };
}

// What refers to it is looked for behind the rest, and not where another function was asked about meanwhile.
async function why({ index }, tell, number) {
  const { why: reason, callers } = await library, { root, chain, alone } = reason(bytes, index, roots);
  tell('why', { index, root, ...endsOf(chain), alone });
  await new Promise((done) => setTimeout(done));
  const found = newest.why === number && root !== null ? callers(bytes, index, roots) : [];
  tell('callers', { callers: found.slice(0, MOST_CALLERS), left: Math.max(0, found.length - MOST_CALLERS), last: true });
}

const ANSWERS = { take, rows, ticks, why };

self.onmessage = async ({ data }) => {
  newest[data.word] = data.number;
  const tell = (word, what) => self.postMessage({ word, asked: data.word, number: data.number, last: false, ...what });
  try {
    await ANSWERS[data.word](data, tell, data.number);
  } catch (error) {
    const code = error instanceof MulkaveshError ? error.code : error.name;
    tell('refused', { code, message: error.message, fault: error.fault ?? null, last: true });
    // Nothing more is asked of a file that is refused.
    if (data.word === 'take') forget();
  }
};
