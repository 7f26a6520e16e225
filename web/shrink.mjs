// Makes mulkavesh.wasm of a folder smaller by itself: node web/shrink.mjs FOLDER. What it writes has to write the same again.
import { readFileSync, writeFileSync } from 'node:fs';
import { join, resolve } from 'node:path';
import { pathToFileURL } from 'node:url';

const folder = resolve(process.argv[2]);
const { load } = await import(pathToFileURL(join(folder, 'mulkavesh.js')));
const file = join(folder, 'mulkavesh.wasm'), before = readFileSync(file), options = { names: false, producers: false };
const smaller = (await load(before)).gc(before, options);
const again = (await load(smaller)).gc(before, options);
if (!Buffer.from(smaller).equals(Buffer.from(again))) throw new Error('the smaller library writes other bytes');
writeFileSync(file, smaller);
