// Makes a million calls and more by bindings/js, of all sorts, and looks at how much memory the module has. It must not grow:
//
//     node --expose-gc leak.mjs addercoil.wasm CAPTURE
//
// Calls that are refused or throw are among them, tables that are closed, and tables that nobody closes.
import { readFileSync } from "node:fs";
import { Refused, load } from "../../bindings/js/addercoil.js";

const MILLION = 1_000_000, UNCLOSED = 3000;
const [path, capture] = process.argv.slice(2);
const library = await load(readFileSync(path));
const { records } = library.readCapture(readFileSync(capture));
let calls = 0;

function thrown(work) {
    calls++;
    try {
        work();
        return null;
    } catch (why) {
        return why;
    }
}

// A table of its own: messages, wrong lengths, wrong types, what is shown; then it is closed
function round(number) {
    const table = library.table({ places: 1 + (number % 1024), site: number % 2 ? [52.31, 4.76] : null });
    for (const { time, message } of records.slice(0, 400)) {
        table.tryReceive(message, time);
        table.tryReceive(message.subarray(0, 13), time);
        calls += 2;
    }
    const faults = [() => table.receive(new Uint8Array(100_000), 1), () => table.receive("zz", 1)];
    faults.push(() => library.decode(new Uint8Array(14)), () => library.table({ places: 0 }));
    const wrong = [() => table.receive(null, 1), () => table.receive("00", 0.5), () => table.feed("x")];
    wrong.push(() => library.degrees("x", 0), () => table.tryReceive(null, 0));
    if (!faults.every((work) => thrown(work) instanceof Refused) || !wrong.every((work) => thrown(work) instanceof TypeError)) {
        throw new Error("another error than there should be");
    }
    table.listing(true);
    calls += 2 * [...table].length + 1;
    const walk = table.tracks();
    walk.next();
    table.close();
    table.close();
    if (!(thrown(() => walk.next()) instanceof Error) || !(thrown(() => table.clock) instanceof Error) || !table.closed) {
        throw new Error("a closed table answers");
    }
}

for (let number = 0; number < 1024; number++) {
    round(number); // each size of a table once
}
const before = library.memoryBytes;
let number = 0;
for (calls = 0; calls < MILLION; number++) {
    round(number);
}
const after = library.memoryBytes;
if (after !== before) {
    throw new Error(`the memory grew from ${before} to ${after} bytes`);
}

// Tables that nobody closes: their bytes come back when they are collected
const one = 16 + 86 * 1024;
for (let made = 0; made < UNCLOSED; made++) {
    library.table({ places: 1024 });
    if (made % 50 === 49) {
        gc();
        await new Promise((resolve) => setTimeout(resolve, 1));
    }
}
const most = library.memoryBytes;
if (most - after >= (UNCLOSED * one) / 4) {
    throw new Error(`of ${UNCLOSED} tables that nobody closed ${most - after} bytes are left`);
}
console.log(`${calls} calls and ${number} tables in ${before} bytes; ${UNCLOSED} tables that nobody closed took ${most - after} more`);
