// A first use in node: load a network, write the picture, update; COUNT camera rows from row FIRST on change, update; read.
//
//   node examples/javascript/first.mjs "$(tools/archive wasm)/clew.wasm" \
//     samples/centre.net samples/picture.bytes 15 3 samples/rows-15-to-17.bytes
//
// What is wrong with a word, a file or a call is said on standard error, and the exit status is 1.
import { readFileSync } from 'node:fs';
import { Joiner } from './joiner.mjs';

async function main([wasm, network, picture, first, count, rows, ...more]) {
  if (rows === undefined || more.length > 0) throw new Error('usage: first.mjs CLEW.WASM NETWORK PICTURE FIRST COUNT ROWS');
  const { instance } = await WebAssembly.instantiate(readFileSync(wasm));
  const joiner = new Joiner(instance, readFileSync(network));
  const bytes = readFileSync(picture);
  if (bytes.length !== joiner.picture.length) throw new Error(`${picture}: the network's picture has ${joiner.picture.length} bytes`);
  joiner.picture.set(bytes);
  console.log(`${joiner.update()} bytes recomputed`);
  joiner.changeRows(first, count, readFileSync(rows));
  console.log(`${joiner.update()} bytes recomputed`);
  console.log(` ${joiner.reading().join(' ')}`);
}

main(process.argv.slice(2)).catch((error) => {
  console.error(error.message);
  process.exitCode = 1;
});
