// Reads messages in hex on standard input, one a line as *HEX; or HEX, keeps a table of 256 places and prints the listing at the end:
//
//     node hex.mjs addercoil.wasm [STEP [ALL]] < samples/minute.hex
//
// Message k, from 0, arrives at k times STEP milliseconds, or k. The listing has all tracks, or with 0 for ALL those whose position is known.
import { createInterface } from "node:readline";
import { load } from "../../bindings/js/addercoil.js";

const [path, step = "1", all = "1", ...more] = process.argv.slice(2);
const isStep = /^[0-9]+$/.test(step) && BigInt(step) < 2n ** 64n;
if (path === undefined || !isStep || !["0", "1"].includes(all) || more.length > 0) {
    console.error("usage: node hex.mjs addercoil.wasm [STEP [ALL]]");
    process.exit(2);
}
const addercoil = await load(path);
const table = addercoil.table({ places: 256 });
let time = 0n, refused = 0; // a BigInt, since a step can be any number of 64 bits
for await (const line of createInterface({ input: process.stdin })) {
    const digits = line.match(/^\*?([0-9A-Fa-f]*)/)[1];
    if (table.tryReceive(digits, time) !== 0) {
        refused++;
    }
    time = BigInt.asUintN(64, time + BigInt(step));
}
console.error(`${refused} refused`);
process.stdout.write(table.listing(all === "1"));
