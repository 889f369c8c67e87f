// The types of addercoil.js, for TypeScript and for editors.
import type { Calls, Kind, Layout, RefusalName } from "./names.js";

declare global {
    interface SymbolConstructor {
        readonly dispose: unique symbol;
    }
}

/** Milliseconds from any start. A Number is a whole one, from 0 up; a BigInt is needed above 2^53 alone. */
export type Time = number | bigint;
/** 14 bytes, or 28 hex digits. */
export type Data = ArrayBufferView | ArrayBuffer | string;
export type Bytes = ArrayBufferView | ArrayBuffer;
/** Latitude, -90 to 90, and longitude, -180 to 360, in degrees. */
export type Site = readonly [latitude: number, longitude: number];
/** A reading: null if it is unknown or its code is reserved. */
export type Value = number | string | boolean | Over | null;

/** What the library refused, and why. */
export class Refused extends Error {
    readonly number: number;
    /** Its name in the C header, without ADDERCOIL_REFUSED_. */
    readonly reason: RefusalName;
    readonly words: string;
    constructor(number: number);
}

/** Above what the code can say: no arithmetic takes it. */
export class Over {
    /** Where it begins, or null if the standard does not say that. */
    readonly least: number | null;
    constructor(least?: number | null);
    [Symbol.toPrimitive](hint: string): string;
}

/** What is known of an aircraft that is held. */
export class Track {
    private constructor();
    readonly key: number;
    /** All of ADDERCOIL_TRACK_.., by number: times above 2^53 and MEs are exact here. */
    readonly entries: BigUint64Array;
    get isCoarse(): boolean;
    get kind(): Kind;
    get address(): number;
    /** For kind C: which address it is. */
    get flag(): number | null;
    /** For kind C: which station tells of it. */
    get station(): number | null;
    get heard(): number;
    get callsign(): string | null;
    get category(): string | null;
    /** In degrees, exactly. */
    get latitude(): number | null;
    get longitude(): number | null;
    /** Latitude and longitude in 2^-32 of a turn. */
    get units(): [latitude: number, longitude: number] | null;
    get positionTime(): number | null;
    get onGround(): boolean | null;
    /** By pressure, in feet. */
    get altitude(): number | null;
    get altitudeStep(): number | null;
    get gnssHeight(): number | null;
    get gnssHeightStep(): number | null;
    /** Over ground, in knots. */
    get speed(): number | Over | null;
    /** Over ground, in degrees from north, clockwise. */
    get direction(): number | null;
    get east(): number | Over | null;
    get north(): number | Over | null;
    /** In feet per minute. */
    get rate(): number | Over | null;
    get rateSource(): "geometric" | "barometric" | null;
    get airspeed(): number | Over | null;
    get airspeedKind(): "indicated" | "true" | null;
    get heading(): number | null;
    get version(): number;
    get nuc(): number | null;
    get nic(): number | null;
    /** All but `entries`. An Over becomes {"least": ..}. */
    toJSON(): object;
}

/** A message that was decoded. */
export class Message {
    private constructor();
    readonly entries: BigUint64Array;
    readonly layout: Layout;
    readonly df: number;
    readonly ca: number;
    readonly address: number;
    readonly key: number;
    readonly type: number | null;
    readonly kind: Kind;
    readonly fields: Readonly<Record<string, number>>;
    readonly readings: Readonly<Record<string, Value>>;
    /** All but `entries`. An Over becomes {"least": ..}. */
    toJSON(): object;
}

export interface CaptureRecord {
    /** A BigInt above 2^53 alone. */
    time: Time;
    message: Uint8Array;
}

/** The aircraft of a receiver. */
export class Table implements Iterable<Track> {
    private constructor();
    /** The number that the library returns: 0, or why it refused. */
    tryReceive(message: Data, time: Time): number;
    /** Throws a Refused. */
    receive(message: Data, time: Time): void;
    /** The same with the stamp of a counter of 32 bits. Use one way to receive with one table. */
    tryReceiveStamp(message: Data, stamp: number): number;
    receiveStamp(message: Data, stamp: number): void;
    /** A block of a capture: whether it is a good one. */
    feed(block: Bytes): boolean;
    get places(): number;
    get badBlocks(): number;
    get clock(): number;
    get site(): [latitude: number, longitude: number] | null;
    /** Every aircraft that is held, in the order of the listing. */
    tracks(): Generator<Track, void>;
    [Symbol.iterator](): Generator<Track, void>;
    /** An aircraft, of kind C by flag and station too; null if it is not held. */
    track(kind: Kind, address: number, flag?: number, station?: number): Track | null;
    /** The listing, as the program prints it: of the aircraft with a position, or of all. */
    listing(all?: boolean): string;
    /** Gives its bytes back. A table that nobody has any more is closed in time too. */
    close(): void;
    /** The same, for `using`, if the language has it. */
    [Symbol.dispose](): void;
    get closed(): boolean;
}

/** The library in a module. */
export class Library {
    private constructor();
    readonly calls: Readonly<Calls>;
    get version(): string;
    /** How large the memory of the module is. */
    get memoryBytes(): number;
    /** A table of 1 to 1,024 places, 256 if nothing is said. */
    table(options?: { places?: number; site?: Site | null }): Table;
    decode(message: Data): Message;
    encode(message: Message | BigUint64Array): Uint8Array;
    /** The key under which a table keeps the track of a message. */
    key(message: Data): number;
    /** A spot in degrees, exactly. */
    degrees(latitude: number, longitude: number): [latitude: number, longitude: number];
    /** The spot nearest to a latitude and a longitude in degrees. */
    units(latitude: number, longitude: number): [latitude: number, longitude: number];
    /** The spot that two doubles exactly are; any other is refused with 15. */
    fromDegrees(latitude: number, longitude: number): [latitude: number, longitude: number];
    /** The records of each block of a capture, or null for a bad block. */
    records(capture: Bytes): Generator<CaptureRecord[] | null, void>;
    readCapture(capture: Bytes): { records: CaptureRecord[]; badBlocks: number };
    /** The track of one aircraft, worked out again from a log of at most 2,900 records; null if it is not held. */
    replay(
        log: Bytes | Iterable<{ time: Time; message: Data }>,
        aircraft: { kind: Kind; address: number; flag?: number; station?: number; site?: Site | null },
    ): Track | null;
    /** Another decoder's listing of a capture: 0 if it is right, else the number of the first line at fault. */
    check(capture: Bytes, listing: string | Bytes): number;
    /** The listings of two tables side by side as one. */
    merge(one: string | Bytes, other: string | Bytes): string;
}

/** The library in dist/addercoil.wasm: its bytes, a compiled module, or where it lies, a URL or for node a path. */
export function load(source: Bytes | WebAssembly.Module | URL | string): Promise<Library>;
