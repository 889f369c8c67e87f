// A program that uses the types of bindings/js. tsc must take it, and refuse each line below an @ts-expect-error.
import { Library, Over, Refused, Table, Track, load } from "../../bindings/js/addercoil.js";
import { TRACK_ENTRIES, WORDS } from "../../bindings/js/names.js";

export async function tried(bytes: Uint8Array): Promise<string> {
    const library: Library = await load(bytes);
    const table: Table = library.table({ places: 256, site: [52.31, 4.76] });
    const number: number = table.tryReceive("8D4840D6202CC371C32CE0576098", 1000n);
    try {
        table.receive(bytes, 1000);
    } catch (why) {
        if (why instanceof Refused) {
            return `${why.number} ${why.reason} ${WORDS[number]}`;
        }
    }
    const found: Track | null = table.track("C", 1, 0, 3);
    const exact: bigint | undefined = found?.entries[TRACK_ENTRIES.heard];
    const speeds = [...table].map((track) => (track.speed instanceof Over ? Infinity : track.speed ?? 0));
    const { records, badBlocks } = library.readCapture(bytes);
    const again = library.replay(records, { kind: "I", address: 1 })?.callsign ?? "";
    // @ts-expect-error: a track may not be held
    found.heard;
    // @ts-expect-error: there is no such kind
    table.track("X", 1);
    // @ts-expect-error: a speed may be unknown, or over
    [...table][0].speed + 1;
    // @ts-expect-error: an array of another sort
    library.calls.clock(bytes, new Uint8Array(8));
    table[Symbol.dispose]();
    const text: object = library.decode(bytes).toJSON();
    return `${text} ${exact} ${speeds.length} ${badBlocks} ${again} ${library.decode(bytes).readings.altitude} ${library.calls.version()}`;
}
