// As server.c, over clew.wasm in node: `node server.mjs clew.wasm`.
import { readFileSync, readSync, writeSync } from 'node:fs';

const CALLS = ['load', 'change_rows', 'replace_layer', 'update', 'read', 'sizes'];
const [NET, SUMS, AREA, STATE, OWN, TOLD] = [0, 1, 2, 3, 4, 5];
const FENCE = 24;
const MARK = 0xa5;
const STACK = 65536;

const module = new WebAssembly.Module(readFileSync(process.argv[2]));
const { exports } = new WebAssembly.Instance(module, {});
const heap = exports.__heap_base.value;
exports.memory.grow(16);
const memory = new Uint8Array(exports.memory.buffer);
// The stack stands below all else (tools/archive), and what is never used of it keeps its marks.
memory.fill(MARK, 0, STACK);

// All n bytes of standard input, or undefined at its end.
function get(n) {
  const bytes = Buffer.alloc(n);
  for (let done = 0; done < n; ) {
    const more = readSync(0, bytes, done, n - done);
    if (more === 0) return undefined;
    done += more;
  }
  return bytes;
}

function put(bytes) {
  for (let done = 0; done < bytes.length; ) done += writeSync(1, bytes, done);
}

function stop(why) {
  process.stderr.write(`server: ${why}\n`);
  process.exit(1);
}

// Where each buffer is placed, between fences, those of bytes alone at an odd place; the last place is the end.
function place(lengths) {
  let at = heap + FENCE;
  const places = lengths.map((length, i) => {
    const here = Math.ceil(at / 8) * 8 + ([NET, AREA, OWN].includes(i) ? 1 : 0);
    at = here + length + FENCE;
    return here;
  });
  if (at > memory.length) stop('no room');
  memory.fill(MARK, heap, at);
  return [...places, at];
}

function fencesStand(places, lengths) {
  let at = heap;
  places.forEach((here, i) => {
    if (memory.subarray(at, here).some((byte) => byte !== MARK)) stop('a call wrote beside its buffers');
    at = here + lengths[i];
  });
}

// An empty buffer is lent as NULL.
function call(which, first, second, places, lengths) {
  const [net, sums, area, state, own, told] = lengths.map((length, i) => (length === 0 ? 0 : places[i]));
  const size = lengths.map(BigInt);
  const all = [net, size[NET], sums, size[SUMS] / 4n, area, size[AREA], state];
  const words = {
    load: all,
    change_rows: [...all, first, second, own, size[OWN]],
    replace_layer: [...all, first, own, size[OWN]],
    update: [...all, told],
    read: [...all, own, size[OWN]],
    sizes: [net, size[NET], told],
  };
  return exports[`clew_${CALLS[which]}`](...words[CALLS[which]]);
}

for (let head = get(72); head !== undefined; head = get(72)) {
  const numbers = new BigUint64Array(head.buffer, head.byteOffset, 9);
  const lengths = [...numbers.subarray(3)].map(Number);
  const places = place(lengths);
  lengths.forEach((length, i) => {
    const bytes = get(length);
    if (bytes === undefined) stop('the input is cut');
    memory.set(bytes, places[i]);
  });
  const number = call(Number(numbers[0]), numbers[1], numbers[2], places, lengths);
  fencesStand(places, lengths);
  put(new Uint8Array(BigUint64Array.of(BigInt(number)).buffer));
  lengths.forEach((length, i) => put(memory.subarray(places[i], places[i] + length)));
}
const left = memory.subarray(0, STACK).findIndex((byte) => byte !== MARK);
process.stderr.write(`stack ${STACK - left}\n`);
