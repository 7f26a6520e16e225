// A program over the types of the package, which tests/web.sh compiles where there is a TypeScript compiler.
import { load, BadModule } from 'mulkavesh';
import { Module, InstrSeqBuilder, BadItem, FunctionId, TableId } from 'mulkavesh/module';
import { I32_ADD } from 'mulkavesh/opcodes';
async function use(bytes: Uint8Array): Promise<Uint8Array> {
  const module = Module.fromBuffer(await load(), bytes);
  for (const [id, it] of module.exports) if (it.name.startsWith('_')) module.exports.delete(id);
  const type = module.types.add(['i32'], ['i32']);
  const f: FunctionId = module.funcs.addLocal(type, new InstrSeqBuilder().localGet(0).i32Const(1).op(I32_ADD).body('i64'));
  module.exports.add('f', 'function', f);
  module.data.add({ value: [1, 2] });
  module.elements.add({ items: [f], declared: true });
  module.producers.addSdk('a', '1');
  const it = module.funcs.get(f);
  if (it) it.name = 'f';
  // @ts-expect-error an id of another kind
  const wrong: TableId = f;
  // @ts-expect-error what can't be changed
  if (it) it.type = type;
  try {
    return module.emitWasm({ gc: true, names: false });
  } catch (error) {
    if (error instanceof BadItem && error.item.kind === 'function') console.log(error.code === 'BAD_ITEM');
    if (error instanceof BadModule && error.cause === 'ExportNames') console.log(error.message);
    throw error;
  }
}
export { use };
