// Addercoil: a verified decoder of ADS-B messages, over its module of WebAssembly.
//
//     import { load } from "./addercoil.js";
//     const addercoil = await load(new URL("addercoil.wasm", import.meta.url));
//     const table = addercoil.table({ places: 256, site: [52.31, 4.76] });
//     table.receive("8D4840D6202CC371C32CE0576098", 1000);
//     for (const track of table.tracks()) console.log(track.kind, track.address, track.callsign, track.latitude, track.longitude);
//
// The library in the module is proved. This file is a thin layer over it and is not: the project's tests compare it with the model. A message is bytes or
// hex. What the library refuses is thrown as a Refused, with the number and its words; tryReceive returns the number instead. Wrong types are a TypeError.
// Unknown is null; what is above its code is an Over, which no arithmetic takes. Numbers are Numbers. `entries` has all that the library says as BigInts:
// there a time above 2^53 is exact, and so are the 56 bits of an ME. JSON.stringify takes tracks and messages, and leaves `entries` out.
import {
    BLOCK, DEGREES, FIELDS, FIELDS_OF, FUNCTIONS, HEAD, INTEGRITY_NIC, INTEGRITY_NUC, KINDS, KNOWN, LAYOUTS, MESSAGE, OVER, READINGS_OF, RECORD, REFUSALS, SITE,
    SPOT, STAMPS, STOPPED, TRACK, TRACK_ENTRIES, VERSION, WORDS,
} from "./names.js";

const PAGE = 65536; // bytes by which the memory of a module grows
const LEAST = 16; // bytes of a piece of it, and how pieces are aligned
const FIRST = 3, TIME = 8; // where the records of a block begin, and the bytes of a time
const LISTED = 128; // bytes of the listing for its header, and for each place
const TURN = 2 ** 32; // units of a circle
const PARTS = 48; // of a knot, in a movement
const COARSE_KEY = 2 ** 31; // the bit of a key of kind C
const FIELD = 8, LOG = 14; // the numbers of what is out of its range, and of a log that is none
const LETTERS = Object.fromEntries(Object.entries(KINDS).map(([letter, number]) => [number, letter]));
const LAYOUT_NAMES = Object.fromEntries(Object.entries(LAYOUTS).map(([name, number]) => [number, name]));
const SCHEME = /^[a-z][a-z0-9+.-]+:/i; // a single letter is a drive
const ELEMENTS = { u8: Uint8Array, u64: BigUint64Array, f64: Float64Array };
const RANGES = { u32: [0n, 2n ** 32n - 1n], i32: [-(2n ** 31n), 2n ** 31n - 1n], u64: [0n, 2n ** 64n - 1n] };

/** Why the library refused: its number, its name in the C header without ADDERCOIL_REFUSED_, and what that means in words. */
export class Refused extends Error {
    constructor(number) {
        super(`refused with ${number}: ${WORDS[number]}`);
        this.name = "Refused";
        this.number = number;
        this.reason = REFUSALS[number];
        this.words = WORDS[number];
    }
}

/** Above what the code can say. It is no number; `least` is where it begins, or null if the standard does not say that. */
export class Over {
    constructor(least = null) {
        this.least = least;
        Object.freeze(this);
    }

    [Symbol.toPrimitive](hint) {
        if (hint === "string") {
            return "over";
        }
        throw new TypeError("an Over is no number");
    }
}

function accepted(number) {
    if (number !== 0) {
        throw new Refused(number);
    }
}

// Numbers and bytes that are handed over

class OutOfRange extends RangeError {}

function whole(value, kind) {
    if (typeof value !== "bigint" && !Number.isInteger(value)) {
        throw new TypeError(`a whole number is needed, and not ${typeof value === "number" ? value : typeof value}`);
    }
    const number = BigInt(value), [least, most] = RANGES[kind];
    if (number < least || number > most) {
        throw new OutOfRange(`${number} is not from ${least} to ${most}`);
    }
    return kind === "u64" ? number : Number(number);
}

function real(value) {
    if (typeof value !== "number") {
        throw new TypeError(`a number is needed, and not ${typeof value}`);
    }
    return value;
}

// What a function gives, but a number that is out of its range makes it `otherwise`
function within(otherwise, work) {
    try {
        return work();
    } catch (why) {
        if (why instanceof OutOfRange) {
            return otherwise(why);
        }
        throw why;
    }
}

const refuseField = () => { throw new Refused(FIELD); };

function bytesIn(value, what) {
    if (ArrayBuffer.isView(value)) {
        return new Uint8Array(value.buffer, value.byteOffset, value.byteLength);
    }
    if (value instanceof ArrayBuffer) {
        return new Uint8Array(value);
    }
    throw new TypeError(`${what} is bytes, and not ${typeof value}`);
}

// The bytes of a message. What is no hex is empty, which the library refuses with 1 as any wrong length
function octetsOf(message) {
    if (typeof message !== "string") {
        return bytesIn(message, "a message");
    }
    const isHex = message.length % 2 === 0 && /^[0-9A-Fa-f]*$/.test(message);
    return Uint8Array.from(isHex ? message.match(/../g) ?? [] : [], (digits) => parseInt(digits, 16));
}

const listingIn = (listing) => (typeof listing === "string" ? new TextEncoder().encode(listing) : bytesIn(listing, "a listing"));

function pairOf(site) {
    if (!Array.isArray(site) || site.length !== 2) {
        throw new TypeError("a site is a latitude and a longitude");
    }
    return site;
}

const nearest = (degrees) => { const exact = (degrees * TURN) / 360; return Math.trunc(exact < 0 ? exact - 0.5 : exact + 0.5); };

// The key of an aircraft, as ADDERCOIL_KEY_OF and ADDERCOIL_KEY_COARSE make it; null if there is none
function keyOf(kind, address, flag = 0, station = 0) {
    if (typeof kind !== "string") {
        throw new TypeError(`a kind is one of ${Object.keys(KINDS).join(", ")}, and not ${typeof kind}`);
    }
    const numbers = within(() => null, () => [address, flag, station].map((one) => whole(one, "u32")));
    if (numbers === null || !Object.hasOwn(KINDS, kind) || numbers[0] >= 2 ** 24 || numbers[1] > 1 || numbers[2] > 15) {
        return null;
    }
    return kind === "C" ? COARSE_KEY + numbers[0] * 32 + numbers[1] * 16 + numbers[2] : KINDS[kind] * 2 ** 24 + numbers[0];
}

// The memory of the module, above what is its own. A piece has a power of two of bytes; one that is given back is taken again for the same size

class Lent {
    constructor(at, count) {
        this.at = at;
        this.count = BigInt(count);
    }
}

class Memory {
    #free = new Map();
    #top;
    #owned = new FinalizationRegistry(({ at, size }) => this.give(at, size));

    constructor(exported) {
        this.memory = exported.memory;
        this.#top = Math.ceil(exported.__heap_base.value / LEAST) * LEAST;
    }

    // The bytes now: when the memory grows, older views of it are empty
    get bytes() {
        if (this.view?.buffer !== this.memory.buffer) {
            this.view = new Uint8Array(this.memory.buffer);
        }
        return this.view;
    }

    take(size) {
        const piece = Memory.#piece(size), free = this.#free.get(piece);
        if (free?.length) {
            return free.pop();
        }
        const at = this.#top, lacking = at + piece - this.memory.buffer.byteLength;
        if (lacking > 0) {
            this.memory.grow(Math.ceil(lacking / PAGE));
        }
        this.#top += piece;
        return at;
    }

    give(at, size) {
        const piece = Memory.#piece(size);
        this.#free.has(piece) || this.#free.set(piece, []);
        this.#free.get(piece).push(at);
    }

    // The same for an object, whose piece is given back at the latest when nobody has the object any more
    takeFor(owner, size) {
        const piece = { at: this.take(size), size };
        this.#owned.register(owner, piece, owner);
        return piece;
    }

    giveFor(owner, { at, size }) {
        this.#owned.unregister(owner);
        this.give(at, size);
    }

    static #piece(size) {
        let piece = LEAST;
        while (piece < size) {
            piece *= 2;
        }
        return piece;
    }
}

// A function of the header. Arrays are copied in, and what it writes is copied back; what is Lent lies in the memory already
function bound(memory, exported, name) {
    const [, parameters] = FUNCTIONS[name];
    return (...given) => {
        if (given.length !== parameters.length) {
            throw new TypeError(`${name} takes ${parameters.length} arguments, and not ${given.length}`);
        }
        const handed = [], taken = [];
        try {
            for (const [index, [, kind, use]] of parameters.entries()) {
                const value = given[index];
                if (!use) {
                    handed.push(kind === "f64" ? real(value) : whole(value, kind));
                } else if (value instanceof Lent) {
                    handed.push(value.at, value.count);
                } else if (value instanceof ELEMENTS[kind]) {
                    const bytes = bytesIn(value), at = bytes.length ? memory.take(bytes.length) : 0;
                    taken.push({ at, bytes, use });
                    memory.bytes.set(bytes, at);
                    handed.push(at, BigInt(value.length));
                } else {
                    throw new TypeError(`${name} needs a ${ELEMENTS[kind].name}, and not ${typeof value}`);
                }
            }
            const answer = exported(...handed);
            for (const { at, bytes, use } of taken) {
                use === "writes" && bytes.set(memory.bytes.subarray(at, at + bytes.length));
            }
            return typeof answer === "bigint" ? Number(BigInt.asUintN(64, answer)) : answer >>> 0;
        } finally {
            taken.forEach(({ at, bytes }) => bytes.length && memory.give(at, bytes.length));
        }
    };
}

// Readings

const signed = (entry) => Number(BigInt.asIntN(64, entry));
const degreesOf = (units) => (units * 360) / TURN;

function textOf(entry) {
    const codes = Array.from({ length: 8 }, (_, at) => Number((entry >> BigInt(8 * (7 - at))) & 0xffn));
    return String.fromCharCode(...codes).trimEnd();
}

// A number, which is 0 if it is stopped. It is null if it is unknown or its code is reserved. If it is an Over, a function makes its least of the value
function reading(entries, at, least = () => null) {
    const what = Number(entries[at]), value = signed(entries[at + 1]);
    return what === KNOWN ? value : what === STOPPED ? 0 : what === OVER ? new Over(least(value)) : null;
}

const isNumber = (found) => found !== null && !(found instanceof Over);

/** What is known of an aircraft that is held. `entries` has all of ADDERCOIL_TRACK_.., by number. */
export class Track {
    #library;

    constructor(library, key, entries) {
        this.#library = library;
        this.key = key;
        this.entries = entries;
    }

    #entry(name) {
        return Number(this.entries[TRACK_ENTRIES[name]]);
    }

    #reading(name, least) {
        return reading(this.entries, TRACK_ENTRIES[`${name}Is`], least);
    }

    #number(name) {
        const found = this.#reading(name);
        return isNumber(found) ? found : null;
    }

    #valid(name, status) {
        const found = this.#number(name);
        return found === null || this.#number(status) !== 1 ? null : degreesOf(found);
    }

    #word(name, words) {
        const found = this.#number(name);
        return found === null ? null : words[found];
    }

    get isCoarse() { return this.key >= COARSE_KEY; }
    get kind() { return this.isCoarse ? "C" : LETTERS[Math.floor(this.key / 2 ** 24)]; }
    get address() { return (this.isCoarse ? this.key >>> 5 : this.key) & 0xffffff; }
    get flag() { return this.isCoarse ? (this.key >>> 4) & 1 : null; }
    get station() { return this.isCoarse ? this.key & 15 : null; }
    get heard() { return this.#entry("heard"); }
    get callsign() { return this.#number("callsign") === null ? null : textOf(this.entries[TRACK_ENTRIES.callsign]); }

    get category() {
        return this.#number("categorySet") === null ? null : `${String.fromCharCode(this.#entry("categorySet"))}${this.#entry("category")}`;
    }

    get units() {
        return this.#entry("positionKnown") ? [signed(this.entries[TRACK_ENTRIES.latitude]), this.#entry("longitude")] : null;
    }

    get #degrees() {
        const units = this.units;
        return units === null ? [null, null] : this.#library.degrees(...units);
    }

    get latitude() { return this.#degrees[0]; }
    get longitude() { return this.#degrees[1]; }
    get positionTime() { return this.#entry("positionKnown") ? this.#entry("positionTime") : null; }
    get onGround() { return this.#word("onGround", [false, true]); }
    get altitude() { return this.#number("altitude"); }
    get altitudeStep() { return this.#number("altitudeStep"); }
    get gnssHeight() { return this.#number("gnssHeight"); }
    get gnssHeightStep() { return this.#number("gnssHeightStep"); }

    get speed() {
        if (this.isCoarse) {
            return this.#reading("speed", (least) => least);
        }
        if (this.onGround) {
            const found = this.#reading("movement", (least) => least / PARTS);
            return isNumber(found) ? found / PARTS : found;
        }
        const { east, north } = this;
        if (east === null || north === null) {
            return null;
        }
        return isNumber(east) && isNumber(north) ? Math.sqrt(east * east + north * north) : new Over();
    }

    get direction() {
        if (this.isCoarse) {
            return this.#valid("angle", "angleStatus");
        }
        if (this.onGround) {
            return this.#valid("surfaceHeading", "surfaceStatus");
        }
        const { east, north } = this;
        if (!isNumber(east) || !isNumber(north) || (east === 0 && north === 0)) {
            return null;
        }
        const found = Math.atan2(east, north) * (180 / Math.PI);
        return found < 0 ? found + 360 : found;
    }

    get east() { return this.#reading("east"); }
    get north() { return this.#reading("north"); }
    get rate() { return this.#reading("rate"); }
    get rateSource() { return this.#word("rateSource", ["geometric", "barometric"]); }
    get airspeed() { return this.#reading("airspeed"); }
    get airspeedKind() { return this.#word("airspeedKind", ["indicated", "true"]); }
    get heading() { return this.#valid("heading", "headingStatus"); }
    get version() { return this.#entry("version"); }
    get nuc() { return this.#entry("integrityIs") === INTEGRITY_NUC ? this.#entry("integrity") : null; }
    get nic() { return this.#entry("integrityIs") === INTEGRITY_NIC ? this.#entry("integrity") : null; }

    // All but `entries`, whose BigInts JSON does not have
    toJSON() {
        const getters = Object.entries(Object.getOwnPropertyDescriptors(Track.prototype)).filter(([, one]) => one.get);
        return Object.fromEntries(["key", ...getters.map(([name]) => name)].map((name) => [name, this[name]]));
    }
}

// What a reading of a message means, by its layout and name
function meaning(layout, name, entries, at) {
    const inParts = layout === "SURFACE" && name === "speed";
    const least = inParts ? (value) => value / PARTS : layout === "COARSE" ? (value) => value : undefined;
    const found = reading(entries, at, least);
    if (!isNumber(found)) {
        return found;
    }
    if (name === "text") {
        return textOf(entries[at + 1]);
    }
    if (name === "turn" || name === "angle") {
        return degreesOf(found);
    }
    return name === "set" ? String.fromCharCode(found) : name === "gnss" ? found === 1 : inParts ? found / PARTS : found;
}

/** A message that was decoded. `fields` are its codes, `readings` what they mean, `entries` all that addercoil_decode says. */
export class Message {
    constructor(entries) {
        const named = (part, make) => Object.fromEntries(Object.entries(part[this.layout]).map(([name, at]) => [name, make(name, at)]));
        this.entries = entries;
        this.layout = LAYOUT_NAMES[entries[HEAD.layout]];
        [this.df, this.ca, this.address, this.key] = [HEAD.df, HEAD.ca, HEAD.aa, HEAD.key].map((at) => Number(entries[at]));
        this.type = this.layout === "COARSE" ? null : Number(entries[HEAD.typecode]);
        this.kind = this.key >= COARSE_KEY ? "C" : LETTERS[Math.floor(this.key / 2 ** 24)];
        this.fields = named(FIELDS_OF, (_, at) => Number(entries[at]));
        this.readings = named(READINGS_OF, (name, at) => meaning(this.layout, name, entries, at));
    }

    // The same
    toJSON() {
        const { entries, ...rest } = this;
        return rest;
    }
}

/** The aircraft of a receiver. Its bytes lie in the module's memory until it is closed, or nobody has it any more. */
export class Table {
    #library;
    #memory;
    #places;
    #piece; // of the memory: room for a message, then the table
    #lent = null;
    #message;
    #stamps = new BigUint64Array(STAMPS);
    #one = new BigUint64Array(1);
    #bad = 0;

    constructor(library, memory, { places = 256, site = null } = {}) {
        this.#library = library;
        this.#memory = memory;
        this.#places = Number(places);
        const spot = site === null ? [] : library.units(...pairOf(site));
        const size = within(() => 0, () => library.calls.table_bytes(places));
        this.#piece = memory.takeFor(this, LEAST + size);
        this.#message = new Lent(this.#piece.at, MESSAGE);
        this.#lent = new Lent(this.#piece.at + LEAST, size);
        const number = this.#call(spot.length ? "set_up_at" : "set_up", ...spot);
        if (number !== 0) {
            this.close();
            throw new Refused(number);
        }
    }

    #call(name, ...given) {
        if (this.#lent === null) {
            throw new Error("the table is closed");
        }
        return this.#library.calls[name](this.#lent, ...given);
    }

    // A message as it is lent: in its place before the table, if it is as long as a message is
    #placed(message) {
        const bytes = octetsOf(message);
        if (bytes.length !== MESSAGE || this.#lent === null) {
            return bytes;
        }
        this.#memory.bytes.set(bytes, this.#message.at);
        return this.#message;
    }

    tryReceive(message, time) {
        return within(() => FIELD, () => this.#call("receive", this.#placed(message), time));
    }

    receive(message, time) {
        accepted(this.tryReceive(message, time));
    }

    tryReceiveStamp(message, stamp) {
        return within(() => FIELD, () => this.#call("receive_stamp", this.#placed(message), stamp, this.#stamps));
    }

    receiveStamp(message, stamp) {
        accepted(this.tryReceiveStamp(message, stamp));
    }

    feed(block) {
        const before = this.#bad;
        this.#call("feed_block", bytesIn(block, "a block"), before, this.#one);
        this.#bad = Number(this.#one[0]);
        return this.#bad === before;
    }

    get places() { return this.#places; }
    get badBlocks() { return this.#bad; }

    get clock() {
        this.#call("clock", this.#one);
        return Number(this.#one[0]);
    }

    get site() {
        const out = new BigUint64Array(SITE);
        this.#call("site", out);
        return out[0] ? this.#library.degrees(signed(out[1]), Number(out[2])) : null;
    }

    #next(key) {
        this.#call("next", key, this.#one);
        return Number(this.#one[0]);
    }

    #lookUp(key) {
        const entries = new BigUint64Array(TRACK);
        this.#call("look_up", key, entries);
        return entries[0] ? new Track(this.#library, key, entries) : null;
    }

    *tracks() {
        for (let key = this.#next(0); key !== 0; key = this.#next(key)) {
            const found = this.#lookUp(key);
            if (found !== null) {
                yield found;
            }
        }
    }

    track(kind, address, flag = 0, station = 0) {
        const key = keyOf(kind, address, flag, station);
        return key === null ? refuseField() : this.#lookUp(key);
    }

    listing(all = false) {
        const text = new Uint8Array(LISTED * (this.#places + 1));
        this.#call("listing", this.#bad, all ? 1 : 0, new BigUint64Array(this.#places), text, this.#one);
        return new TextDecoder().decode(text.subarray(0, Number(this.#one[0])));
    }

    close() {
        if (this.#lent !== null) {
            this.#lent = null;
            this.#memory.giveFor(this, this.#piece);
        }
    }

    get closed() { return this.#lent === null; }
}
Table.prototype[Symbol.iterator] = Table.prototype.tracks;
if (Symbol.dispose) {
    Table.prototype[Symbol.dispose] = Table.prototype.close; // if the language has `using`
}

/** The library in a module. `calls` has every function of include/addercoil.h by its name, without addercoil_ before it. */
export class Library {
    #memory;

    constructor(exported) {
        this.#memory = new Memory(exported);
        this.calls = Object.fromEntries(Object.keys(FUNCTIONS).map((name) => [name, bound(this.#memory, exported[`addercoil_${name}`], name)]));
        if (this.calls.version() !== VERSION) {
            throw new Error(`the module is version ${this.calls.version()}, and this file is for ${VERSION}`);
        }
        Object.freeze(this.calls);
    }

    get version() { return [Math.floor(VERSION / 10_000), Math.floor(VERSION / 100) % 100, VERSION % 100].join("."); }
    get memoryBytes() { return this.#memory.bytes.length; }

    table(options) {
        return new Table(this, this.#memory, options);
    }

    decode(message) {
        const entries = new BigUint64Array(FIELDS);
        accepted(this.calls.decode(octetsOf(message), entries));
        return new Message(entries);
    }

    encode(message) {
        const made = new Uint8Array(MESSAGE);
        accepted(this.calls.encode(message instanceof Message ? message.entries : message, made));
        return made;
    }

    key(message) {
        const out = new BigUint64Array(1);
        accepted(this.calls.key(octetsOf(message), out));
        return Number(out[0]);
    }

    degrees(latitude, longitude) {
        const out = new Float64Array(DEGREES);
        accepted(within(() => FIELD, () => this.calls.degrees(latitude, longitude, out)));
        return [...out];
    }

    units(latitude, longitude) {
        if (!(real(latitude) >= -90 && latitude <= 90 && real(longitude) >= -180 && longitude <= 360)) {
            refuseField();
        }
        return [nearest(latitude) + 0, (nearest(longitude) + TURN) % TURN];
    }

    fromDegrees(latitude, longitude) {
        const out = new BigUint64Array(SPOT);
        accepted(this.calls.from_degrees(latitude, longitude, out));
        return [signed(out[0]), Number(out[1])];
    }

    // The records of a block of a capture, each a time and a message; null of a bad block
    *records(capture) {
        const bytes = bytesIn(capture, "a capture"), table = this.table({ places: 1 });
        try {
            for (let at = 0; at < bytes.length; at += BLOCK) {
                const block = bytes.subarray(at, at + BLOCK);
                yield table.feed(block) ? recordsIn(block) : null;
            }
        } finally {
            table.close();
        }
    }

    readCapture(capture) {
        const blocks = [...this.records(capture)];
        return { records: blocks.flatMap((records) => records ?? []), badBlocks: blocks.filter((records) => records === null).length };
    }

    replay(log, { kind, address, flag = 0, station = 0, site = null }) {
        const key = keyOf(kind, address, flag, station), spot = site === null ? [] : this.units(...pairOf(site));
        const bytes = logOf(log), entries = new BigUint64Array(TRACK);
        if (key === null) {
            accepted(this.calls.replay(bytes, 0, 0, entries)); // what is no kind is refused in its place, behind a log that is none
        } else if (kind === "C") {
            accepted(this.calls.replay_coarse(bytes, address, flag, station, entries));
        } else {
            accepted(this.calls[spot.length ? "replay_at" : "replay"](bytes, KINDS[kind], address, ...spot, entries));
        }
        return entries[0] ? new Track(this, key, entries) : null;
    }

    check(capture, listing) {
        const out = new BigUint64Array(1);
        accepted(this.calls.check(bytesIn(capture, "a capture"), listingIn(listing), out));
        return Number(out[0]);
    }

    merge(one, other) {
        const texts = [one, other].map(listingIn), made = new Uint8Array(texts[0].length + texts[1].length), written = new BigUint64Array(1);
        accepted(this.calls.merge(...texts, made, written));
        return new TextDecoder().decode(made.subarray(0, Number(written[0])));
    }
}

function recordsIn(block) {
    const view = new DataView(block.buffer, block.byteOffset, block.byteLength);
    return Array.from({ length: block[0] }, (_, number) => {
        const at = FIRST + RECORD * number, time = view.getBigUint64(at);
        return { time: time <= Number.MAX_SAFE_INTEGER ? Number(time) : time, message: block.slice(at + TIME, at + RECORD) };
    });
}

// The bytes of a log: as they are, or of records. A message that is not of 14 bytes makes no whole record
function logOf(log) {
    if (ArrayBuffer.isView(log) || log instanceof ArrayBuffer) {
        return bytesIn(log);
    }
    const records = [...log].map(({ time, message }) => ({ time: within(refuseField, () => whole(time, "u64")), message: octetsOf(message) }));
    const made = new Uint8Array(RECORD * records.length), view = new DataView(made.buffer);
    for (const [number, { time, message }] of records.entries()) {
        accepted(message.length === MESSAGE ? 0 : LOG);
        view.setBigUint64(RECORD * number, time);
        made.set(message, RECORD * number + TIME);
    }
    return made;
}

// The bytes of a module: handed over; or of a file, if node runs this; or from elsewhere. A string with a scheme is a URL
async function contents(source) {
    if (typeof source !== "string" && !(source instanceof URL)) {
        return source;
    }
    const place = SCHEME.test(source) ? new URL(source) : source, isFile = (place.protocol ?? "file:") === "file:";
    if (isFile && globalThis.process?.versions?.node) {
        return (await import("node:fs/promises")).readFile(place);
    }
    const answer = await fetch(source);
    if (!answer.ok) {
        throw new Error(`${source}: ${answer.status} ${answer.statusText}`);
    }
    return answer.arrayBuffer();
}

/** The library in dist/addercoil.wasm: its bytes, a compiled WebAssembly.Module, or where it lies, a URL or for node a path. */
export async function load(source) {
    const made = await WebAssembly.instantiate(await contents(source), {});
    return new Library((made.instance ?? made).exports);
}
