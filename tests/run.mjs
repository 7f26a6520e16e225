// Compares nothing itself: it runs a module in node and prints what that answers. examples.py calls it.
// node tests/run.mjs PLAN.json FILE.. : the plan has `calls`, each a name and arguments as `i32:7`, `from`, the module that functions of `deferred` come from, and
// `renamed`, other names of exports, by the old ones. Prints a line of JSON for each file: the answers, what was written to a file of WASI, how often `env` `enter` was
// called, what `counter` counted, the custom sections and what was imported. Functions that are imported from elsewhere answer 0, those of WASI `success`.
import { readFileSync } from 'node:fs';

const [plan, ...files] = process.argv.slice(2);
const { calls, from, renamed = {}, logs = false } = JSON.parse(readFileSync(plan, 'utf8'));
const EBADF = 8;

function argument(text) {
  const [type, value] = text.split(':');
  return type === 'i64' ? BigInt(value) : Number(value);
}

// What answers the functions that a module imports. What is written comes to `told`.
function imports(module, told, memory) {
  const answers = {
    fd_write(file, vectors, count, written) {
      const view = new DataView(memory().buffer);
      let size = 0;
      for (let at = vectors; at < vectors + count * 8; at += 8) {
        const start = view.getUint32(at, true), length = view.getUint32(at + 4, true);
        told.written += Buffer.from(memory().buffer, start, length).toString('latin1');
        size += length;
      }
      view.setUint32(written, size, true);
      return 0;
    },
    fd_prestat_get: () => EBADF,
    proc_exit() { throw new Error('exit'); },
    emscripten_memcpy_big: (to, start, size) => new Uint8Array(memory().buffer).copyWithin(to, start, start + size),
    enter() { told.entered++; },
    log_with_level: (...all) => told.logs.push(all),
    keep: (value) => value * 1000,
  };
  const all = {};
  for (const { module: its, name, kind } of WebAssembly.Module.imports(module)) {
    told.imports.push(`${its}.${name}`);
    if (kind === 'function') (all[its] ??= {})[name] = its === 'deferred' ? whole.exports[name] : answers[name] ?? (() => 0);
  }
  return all;
}

function made(file, told) {
  const module = new WebAssembly.Module(readFileSync(file));
  const instance = new WebAssembly.Instance(module, imports(module, told, () => Object.values(instance.exports).find((it) => it instanceof WebAssembly.Memory)));
  told.customs = WebAssembly.Module.customSections(module, 'build_id').map((it) => Buffer.from(it).toString('hex'));
  return instance;
}

const nothing = () => ({ answers: [], written: '', entered: 0, logs: [], imports: [] });
const whole = from ? made(from, nothing()) : null;

for (const file of files) {
  const told = nothing(), { exports } = made(file, told);
  for (const [name, ...words] of calls) {
    const function_ = exports[renamed[name] ?? name] ?? exports[name];
    try {
      told.answers.push(function_ === undefined ? 'gone' : String(function_(...words.map(argument))));
    } catch (error) {
      // what an engine says may tell indices
      told.answers.push(error instanceof WebAssembly.RuntimeError ? 'trap' : error.message);
    }
  }
  for (const [name, it] of Object.entries(exports)) if (it instanceof WebAssembly.Global && ['bytes_asked', 'count'].includes(name)) told[name] = String(it.value);
  console.log(JSON.stringify(logs ? told : { ...told, logs: undefined }));
}
