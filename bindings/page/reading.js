// What the page makes of a file: its kind, its messages, and the aircraft of as many tables as are asked for.
import { BLOCK, MESSAGE } from "../js/names.js";

const LONGEST = 63; // bytes of a line that can have a message
const TICKS = 12000n; // of a receiver's 12 MHz counter in a millisecond
const LAST = 2n ** 64n - 1n;
const AT_ONCE = 64; // lines between two looks at the time
const LATE = 2, LENGTH = 1;
const BARE = /^\*?((?:[0-9A-F]{2})+);?$/i;
const COUNTED = /^@([0-9A-F]{12})((?:[0-9A-F]{2})+);?$/i;
const TIMED = /^([0-9]{1,20})[ \t]+((?:[0-9A-F]{2})+);?$/i;

// The time of a line, null if it has none, and its digits; or null if it has no message
function parted(text) {
    if (text.length > LONGEST) {
        return null;
    }
    const line = text.trim(), counted = COUNTED.exec(line), timed = TIMED.exec(line), bare = BARE.exec(line);
    if (!(counted || timed || bare)) {
        return null;
    }
    const time = counted ? BigInt(`0x${counted[1]}`) / TICKS : timed ? BigInt(timed[1]) : null;
    return time !== null && time > LAST ? null : { time, digits: (counted ?? timed)?.[2] ?? bare[1] };
}

// Are these first bytes of a file lines of a receiver, or text of any sort?
export function isLines(bytes) {
    const lines = new TextDecoder("latin1").decode(bytes).split("\n");
    const hasMessage = lines.some((line) => parted(line)?.digits.length >= MESSAGE);
    return hasMessage || bytes.every((byte) => byte >= 32 ? byte < 127 : byte === 9 || byte === 10 || byte === 13);
}

// Tables side by side, which answer and hold for each aircraft what one table with enough places would: docs/GUIDE.md, 'More aircraft than one table'
export class Fleet {
    constructor(library, count, places) {
        this.library = library;
        this.tables = Array.from({ length: count }, () => library.table({ places }));
        this.clock = 0;
        this.out = new BigUint64Array(1);
    }

    // The number of a message at a time
    receive(message, time) {
        if (message.length !== MESSAGE) {
            return LENGTH;
        }
        if (time < this.clock) {
            return LATE;
        }
        this.clock = time;
        const number = this.library.calls.key(message, this.out);
        return number || this.tables[Number(this.out[0]) % this.tables.length].tryReceive(message, time);
    }

    // All that are held, in the order of the listing. Before a table is read it is told the time by a message that it refuses
    tracks() {
        this.tables.forEach((table) => table.tryReceive(new Uint8Array(MESSAGE), this.clock));
        return this.tables.flatMap((table) => [...table]).sort((one, other) => one.key - other.key);
    }

    close() {
        this.tables.forEach((table) => table.close());
    }
}

// What came of the messages so far
class Counts {
    constructor(fleet) {
        this.fleet = fleet;
        this.answers = new Map();
        this.blocks = this.bad = this.lines = this.without = 0;
    }

    count(message, time) {
        const number = this.fleet.receive(message, time);
        this.answers.set(number, (this.answers.get(number) ?? 0) + 1);
    }

    get taken() { return this.answers.get(0) ?? 0; }
    get refused() { return [...this.answers].filter(([number]) => number !== 0).sort(([one], [other]) => one - other); }
}

// A capture, piece by piece. Each function is a generator, which stops where it may be left for a while
export class CaptureReader extends Counts {
    #rest = new Uint8Array();

    *take(piece) {
        const whole = new Uint8Array(this.#rest.length + piece.length);
        whole.set(this.#rest);
        whole.set(piece, this.#rest.length);
        const end = whole.length - (whole.length % BLOCK);
        this.#rest = whole.slice(end);
        yield* this.#blocks(whole.subarray(0, end));
    }

    *end() {
        yield* this.#blocks(this.#rest);
    }

    *#blocks(bytes) {
        for (const records of this.fleet.library.records(bytes)) {
            this.blocks++;
            this.bad += records === null ? 1 : 0;
            records?.forEach(({ time, message }) => this.count(message, time));
            yield;
        }
    }
}

// Lines of a receiver, piece by piece. One without a time comes a step after the last such line
export class LineReader extends Counts {
    #rest = "";
    #following = 0n;

    constructor(fleet, step) {
        super(fleet);
        this.step = BigInt(step);
    }

    *take(piece) {
        const lines = (this.#rest + new TextDecoder("latin1").decode(piece)).split("\n");
        this.#rest = lines.pop().slice(0, LONGEST + 1);
        for (const line of lines) {
            this.#line(line);
            if (this.lines % AT_ONCE === 0) {
                yield;
            }
        }
    }

    *end() {
        if (this.#rest !== "") {
            this.#line(this.#rest);
        }
    }

    #line(text) {
        const found = parted(text), time = found?.time ?? this.#following;
        this.lines++;
        if (found === null || found.time === null) {
            this.#following += this.step;
        }
        if (found === null || time > LAST) {
            this.without++;
        } else {
            this.count(Uint8Array.from(found.digits.match(/../g), (digits) => parseInt(digits, 16)), time);
        }
    }
}
