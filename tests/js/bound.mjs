// Makes the calls that the lines of standard input say, by `calls` of bindings/js, and prints what comes of each, as tests/c/call.h has it:
//
//     node bound.mjs addercoil.wasm < LINES
//
// What is lent to be read must be as it was.
import { readFileSync, writeSync } from "node:fs";
import { load } from "../../bindings/js/addercoil.js";
import { FUNCTIONS } from "../../bindings/js/names.js";

const FRESH = 0xa5;
const TABLES = ["table", "capture", "a"]; // what stands in the place of a table
const LATER = ["order", "written"]; // behind the result array
const ARRAYS = { u8: Uint8Array, u64: BigUint64Array, f64: Float64Array };
const { calls } = await load(process.argv[2]);
const sizeOf = (kind) => ARRAYS[kind].BYTES_PER_ELEMENT;
const roleOf = (name, use) => (TABLES.includes(name) ? "table" : use === "reads" ? "given" : LATER.includes(name) ? name : "result");

// Elements of 64 bits stand high byte first in a line, and low byte first in memory
const turned = (bytes, kind) => (sizeOf(kind) === 8 ? Buffer.from(bytes).swap64() : Buffer.from(bytes));
const bytesOf = (array) => Buffer.from(array.buffer, array.byteOffset, array.byteLength);

function arrayOf(kind, bytes) {
    const copy = Uint8Array.from(bytes); // with a buffer of its own, which is aligned
    return new ARRAYS[kind](copy.buffer, 0, copy.length / sizeOf(kind));
}

// The arrays of a call by their roles. The first entries of the result array are the NUMBERs that no parameter takes
function lentFor(parameters, words) {
    const kinds = Object.fromEntries(parameters.filter(([, , use]) => use).map(([name, kind, use]) => [roleOf(name, use), kind]));
    const lent = {};
    for (const role of ["table", "given"].filter((one) => kinds[one])) {
        const word = words.shift();
        lent[role] = arrayOf(kinds[role], turned(Buffer.from(word === "-" ? "" : word, "hex"), kinds[role]));
    }
    const written = ["result", ...LATER].filter((role) => kinds[role]), lengths = written.map(() => Number(words.shift()));
    const before = BigUint64Array.from(words.slice(parameters.filter(([, , use]) => !use).length), BigInt);
    for (const [index, role] of written.entries()) {
        const bytes = Buffer.alloc(lengths[index] * sizeOf(kinds[role]), FRESH);
        bytesOf(before).copy(bytes);
        lent[role] = arrayOf(kinds[role], bytes);
    }
    return lent;
}

// A number as the parameter has it, cut as C does; a double is its bit pattern
function numberFor(kind, word) {
    const number = BigInt(word);
    if (kind === "f64") {
        return new Float64Array(BigUint64Array.of(number).buffer)[0];
    }
    return kind === "u64" ? BigInt.asUintN(64, number) : Number(kind === "i32" ? BigInt.asIntN(32, number) : BigInt.asUintN(32, number));
}

function answered(line) {
    const [name, ...words] = line.split(" "), [, parameters] = FUNCTIONS[name], lent = lentFor(parameters, words);
    const before = Object.fromEntries(Object.entries(lent).map(([role, array]) => [role, Buffer.from(bytesOf(array))]));
    const number = calls[name](...parameters.map(([one, kind, use]) => (use ? lent[roleOf(one, use)] : numberFor(kind, words.shift()))));
    for (const [one, , use] of parameters.filter(([, , use]) => use)) {
        const role = roleOf(one, use);
        if ((use === "reads" || (role === "order" && number !== 0)) && !before[role].equals(bytesOf(lent[role]))) {
            throw new Error(`${name}: ${one} was written: ${line.slice(0, 200)}`);
        }
    }
    const kinds = Object.fromEntries(parameters.map(([one, kind, use]) => [roleOf(one, use), { kind, use }]));
    const left = ["result", "written", "table"].filter((role) => kinds[role]?.use === "writes");
    return ["=", number, ...left.map((role) => turned(bytesOf(lent[role]), kinds[role].kind).toString("hex") || "-")].join(" ");
}

function print(text) {
    const whole = Buffer.from(text, "ascii");
    for (let at = 0; at < whole.length; ) {
        at += writeSync(1, whole, at);
    }
}

const lines = readFileSync(0, "ascii").split("\n").filter((line) => line);
for (let at = 0; at < lines.length; at += 1000) {
    print(lines.slice(at, at + 1000).map((line) => `${answered(line)}\n`).join(""));
}
