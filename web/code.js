// Bodies of functions, and operators that are put together, in the binary format. Where that has an index, they have the item's id.
import { Reader, heapType, joined, number, signed, valueType, vector } from './wire.js';

const END = 0x0B, EMPTY = 0x40, HAS_MEMORY = 0x40;

/**
 * The body of a function without its size: `data` is its locals, its operators and `0B`; `front` is operators that stand in front of those. What stands in front of
 * a body that was read leaves the names of its locals, which another body doesn't.
 */
export class Body {
  constructor(data, front = new Uint8Array()) {
    this.data = Uint8Array.from(data);
    this.front = Uint8Array.from(front);
    Object.freeze(this);
  }

  /** All its bytes. */
  bytes() {
    if (this.front.length === 0) return this.data;
    const rest = new Reader(this.data);
    for (let left = rest.number(); left > 0; left--) {
      rest.number();
      rest.valueType();
    }
    return joined(this.data.subarray(0, rest.at), this.front, this.data.subarray(rest.at));
  }

  /** The body with these operators in front. Of locals they name the function's parameters alone, as the first ones. */
  withFront(operators) {
    return new Body(this.data, joined(operators.bytes(), this.front));
  }
}

// An opcode: a byte, or one in front times 65,536 and a number.
const opcodeOf = (opcode) => (opcode < 0x100 ? [opcode] : [opcode >>> 16, ...number(opcode & 0xFFFF)]);

function floatOf(size, value) {
  const view = new DataView(new ArrayBuffer(size));
  if (size === 4) view.setFloat32(0, value, true);
  else view.setFloat64(0, value, true);
  return new Uint8Array(view.buffer);
}

/** Operators, one behind the other; each call answers the same builder. `mulkavesh/opcodes` has their numbers. */
export class InstrSeqBuilder {
  #parts = [];

  /** The bytes of the operators. */
  bytes() {
    return joined(...this.#parts);
  }

  /** Operators that these bytes are. */
  raw(...parts) {
    this.#parts.push(joined(...parts));
    return this;
  }

  /** An operator with arguments that are indices, if any. */
  op(opcode, ...args) {
    return this.raw(opcodeOf(opcode), ...args.map(number));
  }

  /** A load of a memory, at a constant offset: the alignment is an exponent of 2. */
  load(opcode, memory, align, offset) {
    const access = memory === 0 ? number(align) : [...number(align | HAS_MEMORY), ...number(memory)];
    return this.raw(opcodeOf(opcode), access, number(offset));
  }

  /** A store to a memory, as a load. */
  store(opcode, memory, align, offset) {
    return this.load(opcode, memory, align, offset);
  }

  i32Const(value) {
    return this.raw(0x41, signed(value));
  }

  /** Of a number or a BigInt. */
  i64Const(value) {
    return this.raw(0x42, signed(value));
  }

  f32Const(value) {
    return this.raw(0x43, floatOf(4, value));
  }

  f64Const(value) {
    return this.raw(0x44, floatOf(8, value));
  }

  /** Parameters are the first locals. */
  localGet(local) {
    return this.op(0x20, local);
  }

  localSet(local) {
    return this.op(0x21, local);
  }

  localTee(local) {
    return this.op(0x22, local);
  }

  globalGet(id) {
    return this.op(0x23, id);
  }

  globalSet(id) {
    return this.op(0x24, id);
  }

  call(id) {
    return this.op(0x10, id);
  }

  callIndirect(type, table) {
    return this.op(0x11, type, table);
  }

  refFunc(id) {
    return this.op(0xD2, id);
  }

  refNull(of) {
    return this.raw(0xD0, heapType(of));
  }

  // A block of nothing, of a value of a type, or of what functions of the type of an id do.
  #open(opcode, type) {
    return this.raw(opcode, type === undefined ? EMPTY : typeof type === 'number' ? signed(type) : valueType(type));
  }

  /** A block that leaves nothing, a value of this type, or what functions of the type of this id do; `end` closes it. */
  block(type) {
    return this.#open(0x02, type);
  }

  /** A loop, as a block. */
  loop(type) {
    return this.#open(0x03, type);
  }

  /** A block where the operand isn't 0, as a block. */
  if(type) {
    return this.#open(0x04, type);
  }

  else() {
    return this.op(0x05);
  }

  /** The end of a block. The one that closes the function comes with its body. */
  end() {
    return this.op(END);
  }

  /** 0 is the innermost block. */
  br(label) {
    return this.op(0x0C, label);
  }

  brIf(label) {
    return this.op(0x0D, label);
  }

  return() {
    return this.op(0x0F);
  }

  unreachable() {
    return this.op(0x00);
  }

  drop() {
    return this.op(0x1A);
  }

  select() {
    return this.op(0x1B);
  }

  /** The body of a function with these operators, and these locals behind its parameters. */
  body(...locals) {
    return new Body(joined(vector(locals.map((type) => [1, ...valueType(type)])), this.bytes(), END));
  }

  /** The constant expression that these operators are. */
  constExpr() {
    return joined(this.bytes(), END);
  }
}
