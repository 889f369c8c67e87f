// The types of names.js, and of every function of include/addercoil.h. tools/bindings writes this file.
export const VERSION: 1000;
export const RECORD: 22;
export const RECORDS: 2900;
export const LINE: 129;
export const BLOCK: 512;
export const MESSAGE: 14;
export const FIELDS: 28;
export const STAMPS: 2;
export const SITE: 3;
export const TRACK: 72;
export const SPOT: 2;
export const COUNTS: 2;
export const DEGREES: 2;
export const UNKNOWN: 0;
export const KNOWN: 1;
export const OVER: 2;
export const NONE: 3;
export const STOPPED: 4;
export const INTEGRITY_UNKNOWN: 0;
export const INTEGRITY_NUC: 1;
export const INTEGRITY_NIC: 2;

export type Kind = "I" | "O" | "T" | "M" | "N" | "C";
export type Layout = "IDENTIFICATION" | "SURFACE" | "AIRBORNE" | "GROUND" | "AIR" | "STATUS" | "COARSE";
export type RefusalName = "LENGTH" | "LATE" | "PARITY" | "FORMAT" | "TYPE" | "FULL" | "PLACES" | "FIELD" | "LATITUDE" | "ZONES" | "NO_TRACK" | "OVERRUN" | "LOG" | "DEGREES" | "FORM";
export type TrackEntry = "held" | "heard" | "identification" | "velocity" | "surface" | "status" | "pressureCode" | "heightCode" | "positionType" | "positionBit8" | "positionKnown" | "latitude" | "longitude" | "positionTime" | "evenKnown" | "evenLatitudeCount" | "evenLongitudeCount" | "evenTime" | "oddKnown" | "oddLatitudeCount" | "oddLongitudeCount" | "oddTime" | "altitudeIs" | "altitude" | "altitudeStepIs" | "altitudeStep" | "gnssHeightIs" | "gnssHeight" | "gnssHeightStepIs" | "gnssHeightStep" | "callsignIs" | "callsign" | "categorySetIs" | "categorySet" | "categoryIs" | "category" | "eastIs" | "east" | "northIs" | "north" | "headingIs" | "heading" | "headingStatusIs" | "headingStatus" | "airspeedIs" | "airspeed" | "airspeedKindIs" | "airspeedKind" | "rateIs" | "rate" | "rateSourceIs" | "rateSource" | "onGroundIs" | "onGround" | "movementIs" | "movement" | "surfaceHeadingIs" | "surfaceHeading" | "surfaceStatusIs" | "surfaceStatus" | "angleIs" | "angle" | "angleStatusIs" | "angleStatus" | "speedIs" | "speed" | "version" | "supplementA" | "supplementB" | "supplementC" | "integrityIs" | "integrity";

/** Every function of the C header by its name, without addercoil_ before it and with the lengths filled in. */
export interface Calls {
    version(): number;
    table_bytes(places: number | bigint): number;
    set_up(table: Uint8Array): number;
    set_up_at(table: Uint8Array, latitude: number, longitude: number): number;
    receive(table: Uint8Array, message: Uint8Array, time: number | bigint): number;
    receive_stamp(table: Uint8Array, message: Uint8Array, stamp: number, state: BigUint64Array): number;
    clock(table: Uint8Array, out: BigUint64Array): number;
    site(table: Uint8Array, out: BigUint64Array): number;
    next(table: Uint8Array, key: number, out: BigUint64Array): number;
    look_up(table: Uint8Array, key: number, out: BigUint64Array): number;
    replay(log: Uint8Array, kind: number, address: number, out: BigUint64Array): number;
    replay_at(log: Uint8Array, kind: number, address: number, latitude: number, longitude: number, out: BigUint64Array): number;
    replay_coarse(log: Uint8Array, address: number, flag: number, station: number, out: BigUint64Array): number;
    listing(table: Uint8Array, bad: number | bigint, all: number, order: BigUint64Array, out: Uint8Array, written: BigUint64Array): number;
    header(table: Uint8Array, bad: number | bigint, all: number, out: Uint8Array): number;
    line(table: Uint8Array, key: number, all: number, out: Uint8Array): number;
    feed_block(table: Uint8Array, block: Uint8Array, bad: number | bigint, out: BigUint64Array): number;
    check(capture: Uint8Array, listing: Uint8Array, out: BigUint64Array): number;
    merge(a: Uint8Array, b: Uint8Array, out: Uint8Array, written: BigUint64Array): number;
    encode_position(latitude: number, longitude: number, surface: number, odd: number, out: BigUint64Array): number;
    pair(even_latitude: number, even_longitude: number, odd_latitude: number, odd_longitude: number, later_odd: number, out: BigUint64Array): number;
    single(latitude: number, longitude: number, count_latitude: number, count_longitude: number, surface: number, odd: number, out: BigUint64Array): number;
    encode_position_coarse(latitude: number, longitude: number, odd: number, out: BigUint64Array): number;
    pair_coarse(even_latitude: number, even_longitude: number, odd_latitude: number, odd_longitude: number, later_odd: number, out: BigUint64Array): number;
    single_coarse(latitude: number, longitude: number, count_latitude: number, count_longitude: number, odd: number, out: BigUint64Array): number;
    degrees(latitude: number, longitude: number, out: Float64Array): number;
    from_degrees(latitude: number, longitude: number, out: BigUint64Array): number;
    decode(message: Uint8Array, fields: BigUint64Array): number;
    key(message: Uint8Array, out: BigUint64Array): number;
    me(me: number | bigint, key: number, fields: BigUint64Array): number;
    encode(fields: BigUint64Array, message: Uint8Array): number;
}

export const REFUSALS: Readonly<Record<number, RefusalName>>;
export const WORDS: readonly string[];
export const KINDS: Readonly<Record<Kind, number>>;
export const LAYOUTS: Readonly<Record<Layout, number>>;
export const TRACK_ENTRIES: Readonly<Record<TrackEntry, number>>;
export const HEAD: Readonly<Record<string, number>>;
export const FIELDS_OF: Readonly<Record<Layout, Readonly<Record<string, number>>>>;
export const READINGS_OF: Readonly<Record<Layout, Readonly<Record<string, number>>>>;
type Parameter = readonly [name: string, type: string, use: string];
export const FUNCTIONS: Readonly<Record<keyof Calls, readonly [answer: string, parameters: readonly Parameter[]]>>;
