// Makes the calls that the lines of standard input say, by the module of WebAssembly, and prints what comes of each, as tests/c/call.h has it:
//
//     node calls.mjs addercoil.wasm [--depth] < LINES
//
// Which arrays and numbers a function has, the header says. Around all that is lent stand guard bytes; a call that changes one, or what it may only read, ends the
// program with 1. With --depth it prints instead how deep into the module's stack each function goes, in bytes, in these calls.
import { readFileSync, writeSync } from "node:fs";
import { createInterface } from "node:readline";

const [path, word] = process.argv.slice(2);
const MOST = 139264; // bytes of an array
const GUARDS = 64, GUARD = 0x5c, FRESH = 0xa5, PAINT = 0xc3;
const ROLES = ["table", "given", "result", "order", "written"]; // what is lent, each in its place
const PLACE = MOST + 2 * GUARDS;
const { instance } = await WebAssembly.instantiate(readFileSync(path), {});
const library = instance.exports;
const base = library.__heap_base.value + 65536 - (library.__heap_base.value % 65536);
library.memory.grow(Math.ceil((base + ROLES.length * PLACE - library.memory.buffer.byteLength) / 65536));
const memory = Buffer.from(library.memory.buffer);

// The role of an array, by its name or by whether it is only read
function roleOf(name, isRead) {
    return ["table", "capture", "a"].includes(name) ? "table" : isRead ? "given" : ["order", "written"].includes(name) ? name : "result";
}

// The functions of the header, each with its parameters: arrays, by their roles, and numbers
function functions() {
    const text = readFileSync(new URL("../../include/addercoil.h", import.meta.url), "ascii").replace(/\/\*[^]*?\*\//g, "");
    const found = {};
    for (const [, name, inside] of text.matchAll(/^\w+ addercoil_(\w+)\(([^)]*)\);/gm)) {
        const shape = { numbers: [], parameters: [] };
        for (const parameter of inside.split(",").map((one) => one.trim().split(/\s+/).join(" "))) {
            const array = parameter.match(/^(const )?(uint8_t|uint64_t|double) \*(\w+)$/);
            const size = array && (array[2] === "uint8_t" ? 1 : 8);
            if (array) {
                const role = roleOf(array[3], array[1]);
                shape[role] = { size, writes: !array[1] };
                shape.parameters.push({ role });
            } else if (!parameter.endsWith("_len") && parameter !== "void") {
                shape.parameters.push({ number: parameter.split(" ")[0] });
            }
        }
        found[name] = shape;
    }
    return found;
}

// Elements of 64 bits stand high byte first in a line, and low byte first in memory
const turned = (bytes, size) => (size === 8 ? Buffer.from(bytes).swap64() : Buffer.from(bytes));
const text = (bytes, size) => (bytes.length ? turned(bytes, size).toString("hex") : "-");

// Lends bytes in the place of their role, between guards
function lend(role, bytes) {
    const at = base + PLACE * ROLES.indexOf(role) + GUARDS;
    memory.fill(GUARD, at - GUARDS, at);
    bytes.copy(memory, at);
    memory.fill(GUARD, at + bytes.length, at + bytes.length + GUARDS);
    return { at, bytes };
}

const isLeft = (at, size) => memory.subarray(at, at + size).every((byte) => byte === GUARD);

// A number as the parameter has it; a double is its bit pattern
function numberFor(kind, word) {
    const number = BigInt(word);
    if (kind === "double") {
        const pattern = Buffer.alloc(8);
        pattern.writeBigUInt64LE(number);
        return pattern.readDoubleLE();
    }
    return kind === "uint64_t" || kind === "addercoil_size" ? BigInt.asIntN(64, number) : Number(BigInt.asIntN(32, number));
}

function fault(why, line) {
    writeSync(2, `${why}: ${line.slice(0, 200)}\n`);
    process.exit(1);
}

// The arrays of a call, each at its place; of the result array its first entries are the NUMBERs that no parameter takes
function lentFor(shape, words) {
    const lent = {};
    for (const role of ["table", "given"]) {
        if (shape[role]) {
            const word = words.shift();
            lent[role] = lend(role, turned(Buffer.from(word === "-" ? "" : word, "hex"), shape[role].size));
        }
    }
    const written = ["result", "order", "written"].filter((role) => shape[role]);
    const lengths = written.map(() => Number(words.shift()));
    const entries = words.slice(shape.parameters.filter((one) => one.number).length);
    const before = Buffer.concat(entries.map((entry) => { const one = Buffer.alloc(8); one.writeBigUInt64LE(BigInt(entry)); return one; }));
    for (const [index, role] of written.entries()) {
        const bytes = Buffer.alloc(lengths[index] * shape[role].size, FRESH);
        before.copy(bytes);
        lent[role] = lend(role, bytes);
    }
    return lent;
}

function call(line, shapes) {
    const [name, ...words] = line.trim().split(" ");
    const shape = shapes[name] ?? fault("no such function", line);
    const lent = lentFor(shape, words);
    const given = [];
    for (const { role, number } of shape.parameters) {
        if (role) {
            given.push(lent[role].bytes.length === 0 ? 0 : lent[role].at, BigInt(lent[role].bytes.length / shape[role].size));
        } else {
            given.push(numberFor(number, words.shift()));
        }
    }
    const answer = library[`addercoil_${name}`](...given);
    const number = typeof answer === "bigint" ? BigInt.asUintN(64, answer) : answer >>> 0;
    const isLeftAsItWas = (role) => lent[role].bytes.compare(memory, lent[role].at, lent[role].at + lent[role].bytes.length) === 0;
    if (lent.order && number !== 0 && !isLeftAsItWas("order")) {
        fault("a call that refused wrote its order", line);
    }
    for (const [role, { at, bytes }] of Object.entries(lent)) {
        if (bytes.length > MOST || !isLeft(at - GUARDS, GUARDS) || !isLeft(at + bytes.length, GUARDS)) {
            fault("bytes beside a lent array were written", line);
        }
        if (!shape[role].writes && !isLeftAsItWas(role)) {
            fault("an array lent to be read was written", line);
        }
    }
    const now = (role) => ` ${text(memory.subarray(lent[role].at, lent[role].at + lent[role].bytes.length), shape[role].size)}`;
    const arrays = ["result", "written"].filter((role) => shape[role]).map(now).join("");
    return { name, text: `= ${number}${arrays}${shape.table?.writes ? now("table") : ""}\n` };
}

const shapes = functions();
const depths = {};
const stack = library.__stack_pointer.value;
let printed = [], size = 0;
function flush() {
    const whole = Buffer.from(printed.join(""), "ascii");
    for (let at = 0; at < whole.length; ) {
        at += writeSync(1, whole, at);
    }
    printed = [];
    size = 0;
}
for await (const line of createInterface({ input: process.stdin, crlfDelay: Infinity })) {
    if (word === "--depth") {
        memory.fill(PAINT, 0, stack);
    }
    const { name, text: outcome } = call(line, shapes);
    if (word === "--depth") {
        const low = memory.subarray(0, stack).findIndex((byte) => byte !== PAINT);
        depths[name] = Math.max(depths[name] ?? 0, low < 0 ? 0 : stack - low);
        continue;
    }
    printed.push(outcome);
    size += outcome.length;
    if (size > 1 << 20) {
        flush();
    }
}
for (const [name, depth] of Object.entries(depths)) {
    printed.push(`${name} ${depth}\n`);
}
flush();
