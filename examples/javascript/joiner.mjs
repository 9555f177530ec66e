// A joiner over an instance of clew.wasm, in a browser or in node. Its buffers stand in the instance's memory, so each joiner has an
// instance of its own:
//
//   const { instance } = await WebAssembly.instantiateStreaming(fetch('clew.wasm'));
//   const joiner = new Joiner(instance, network);

const WORDS = [
  'done',
  'a record is cut, its mark unknown, a spare not 0, or bytes follow the last layer',
  'a field or bias outside its range',
  'file too long, kernel too big, shapes of an add differ, tensor j not there yet, a tensor or all tensors too big',
  'sum store or area shorter than needed (longer is allowed; the rest stays)',
  'a band not 0,0 for a tensor that the network lacks; first > end; end > rows; empty but not 0,0',
  'a stored sum above 255N',
  'layer number not 1..n; no rows, or rows beyond the picture; rows or reading slice of the wrong length',
  'a reading while any band is not empty',
  'replacement differs in length, or in bytes 0-6 (convolution), 0-3 (full), 0-2 (add); or has a field, bias or spare out of range',
];

// A call that was refused; it has changed nothing.
export class Refusal extends Error {
  constructor(call, number) {
    super(`${call}: refused ${number}: ${WORDS[number]}`);
    this.number = number;
  }
}

export class Joiner {
  #calls;
  #end;
  #told;
  #lent;
  #sizes;
  #asLoaded = true;

  // Loads the network, whose bytes are copied. Every row is stale: write the picture, then update.
  constructor(instance, network) {
    this.#calls = instance.exports;
    this.#end = this.#calls.__heap_base.value;
    this.#told = this.#room(16);
    const net = this.#lend(network);
    this.#ask('sizes', ...net, this.#told);
    this.#sizes = [...new Uint32Array(this.#calls.memory.buffer, this.#told, 4)];
    const [, sums, area] = this.#sizes;
    this.#lent = [...net, this.#room(4 * sums), BigInt(sums), this.#room(area), BigInt(area), this.#room(68)];
    this.#ask('load', ...this.#lent);
  }

  // The picture's bytes, to be written before the first update, while every row is stale: a view, to be taken anew after any call.
  get picture() {
    if (!this.#asLoaded) throw new Error('after the first update the picture is changed by changeRows');
    return new Uint8Array(this.#calls.memory.buffer, this.#lent[4], this.#sizes[0]);
  }

  // Writes the picture's rows first up to first + count.
  changeRows(first, count, rows) {
    this.#free((lend) => this.#ask('change_rows', ...this.#lent, BigInt(first), BigInt(count), ...lend(rows)));
  }

  // Writes a record over that of a layer, counted from 1.
  replaceLayer(layer, record) {
    this.#free((lend) => this.#ask('replace_layer', ...this.#lent, BigInt(layer), ...lend(record)));
  }

  // Recomputes what the stale rows reach, and answers how many bytes that were.
  update() {
    this.#ask('update', ...this.#lent, this.#told);
    this.#asLoaded = false;
    return new Uint32Array(this.#calls.memory.buffer, this.#told, 1)[0];
  }

  // The last tensor.
  reading() {
    return this.#free((lend) => {
      const [at, length] = lend(new Uint8Array(this.#sizes[3]));
      this.#ask('read', ...this.#lent, at, length);
      return new Uint8Array(this.#calls.memory.buffer, at, Number(length)).slice();
    });
  }

  #ask(call, ...words) {
    const number = this.#calls[`clew_${call}`](...words);
    if (number !== 0) throw new Refusal(call.replace('_', ' '), number);
  }

  // The address of so many bytes more, aligned for numbers.
  #room(bytes) {
    const at = Math.ceil(this.#end / 8) * 8;
    this.#end = at + bytes;
    const missing = this.#end - this.#calls.memory.buffer.byteLength;
    if (missing > 0) this.#calls.memory.grow(Math.ceil(missing / 65536));
    return at;
  }

  // A copy of the bytes in the memory: its address and length.
  #lend(bytes) {
    const at = this.#room(bytes.length);
    new Uint8Array(this.#calls.memory.buffer, at, bytes.length).set(bytes);
    return [at, BigInt(bytes.length)];
  }

  // Does something with bytes lent for this once.
  #free(use) {
    const end = this.#end;
    try {
      return use((bytes) => this.#lend(bytes));
    } finally {
      this.#end = end;
    }
  }
}
