// Does what the lines of standard input say with bindings/js, and prints what comes of each, both as JSON:
//
//     node scripted.mjs addercoil.wasm < LINES
//
// A line is [NAME, WORD..]: a method of the library; or TABLE.METHOD, of a table that a line ["=TABLE", OPTIONS] made; or again, which decodes a message and encodes
// it; or json, which has another line behind it and gives its outcome as JSON has it. {"hex": ..} is bytes, and {"big": ..} a BigInt. What is thrown is {"refused": NUMBER}, or {"thrown": NAME}.
import { readFileSync, writeSync } from "node:fs";
import { Over, Refused, Track, load } from "../../bindings/js/addercoil.js";

const library = await load(readFileSync(process.argv[2]));
const tables = {};
const NAMES = Object.entries(Object.getOwnPropertyDescriptors(Track.prototype)).filter(([, one]) => one.get).map(([name]) => name);

function given(word) {
    if (Array.isArray(word)) {
        return word.map(given);
    }
    if (word === null || typeof word !== "object") {
        return word;
    }
    if ("hex" in word) {
        return Uint8Array.from(Buffer.from(word.hex, "hex"));
    }
    return "big" in word ? BigInt(word.big) : Object.fromEntries(Object.entries(word).map(([name, one]) => [name, given(one)]));
}

function shown(value) {
    if (value instanceof Over) {
        return { over: value.least };
    }
    if (typeof value === "bigint") {
        return { big: String(value) };
    }
    if (value instanceof BigUint64Array) {
        return Array.from(value, String);
    }
    if (value instanceof Uint8Array) {
        return { hex: Buffer.from(value).toString("hex") };
    }
    if (value instanceof Track) {
        return { key: value.key, entries: shown(value.entries), ...Object.fromEntries(NAMES.map((name) => [name, shown(value[name])])) };
    }
    if (typeof value === "object" && value !== null && Symbol.iterator in value) {
        return [...value].map(shown);
    }
    return typeof value !== "object" || value === null ? value : Object.fromEntries(Object.entries(value).map(([name, one]) => [name, shown(one)]));
}

function done([name, ...words]) {
    if (name.startsWith("=")) {
        tables[name.slice(1)] = library.table(...words.map(given));
        return null;
    }
    if (name === "json") {
        const found = done(words);
        return JSON.parse(JSON.stringify(Symbol.iterator in found ? [...found] : found));
    }
    const [table, method] = name.split("."), on = method ? tables[table] : library, what = method ?? name;
    if (name === "again") {
        return library.encode(library.decode(...words.map(given)));
    }
    return typeof on[what] === "function" ? on[what](...words.map(given)) : on[what];
}

function outcome(line) {
    try {
        return shown(done(JSON.parse(line)) ?? null);
    } catch (why) {
        return why instanceof Refused ? { refused: why.number } : { thrown: why.constructor.name };
    }
}

const lines = readFileSync(0, "utf-8").split("\n").filter((line) => line);
for (const line of lines) {
    const whole = Buffer.from(`${JSON.stringify(outcome(line))}\n`);
    for (let at = 0; at < whole.length; ) {
        at += writeSync(1, whole, at);
    }
}
