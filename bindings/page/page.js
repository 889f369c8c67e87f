// The page: a file that is dropped, chosen or pasted is read in pieces, and its aircraft are shown. What comes from a file is only ever set as text.
import { Over, load } from "../js/addercoil.js";
import { BLOCK, TRACK_ENTRIES, WORDS } from "../js/names.js";
import { CaptureReader, Fleet, LineReader, isLines } from "./reading.js";
import { MODULE, SAMPLE, SAMPLE_NAME } from "./inside.js";

const PIECE = 2 ** 20; // bytes of a file that are read at once
const BUSY = 12; // milliseconds of work before the browser may do its own
const ROWS = 1000; // of the table, until more are asked for
const LARGE = 32 * 2 ** 20; // bytes of a file that takes a while
const UNKNOWN_TEXT = "\u2013";
const $ = (id) => document.getElementById(id);
const bytesOf = (base64) => Uint8Array.from(atob(base64), (letter) => letter.charCodeAt(0));
const grouped = (number) => number.toLocaleString("en");
const counted = (number, one, many = `${one}s`) => `${grouped(number)} ${number === 1 ? one : many}`;

// The columns: a title, what is sorted by, and what is shown in degrees or raw units. An exact number stands behind one that is shown rounded
const figure = (value, digits) => value === null ? null : value instanceof Over ? "over" : value.toFixed(digits);
const numberOf = (value) => value instanceof Over ? Infinity : value;
const place = (at) => (track, raw) => raw ? track.units?.[at] ?? null : figure([track.latitude, track.longitude][at], 5);
const COLUMNS = [
    { title: "Kind", by: (track) => track.key, text: (track) => track.kind },
    { title: "Address", by: (track) => track.address, text: addressOf, isName: true },
    { title: "Callsign", by: callsignOf, text: callsignOf },
    { title: "Heard", unit: "ms", by: (track) => track.entries[TRACK_ENTRIES.heard], text: (track) => track.entries[TRACK_ENTRIES.heard] },
    { title: "Latitude", isPlace: true, by: (track) => track.latitude, text: place(0), exact: (track) => track.latitude },
    { title: "Longitude", isPlace: true, by: eastOf, text: place(1), exact: (track) => track.longitude },
    { title: "Altitude", unit: "feet", by: (track) => track.altitude, text: (track) => track.altitude },
    { title: "Step", unit: "feet", by: (track) => track.altitudeStep, text: (track) => track.altitudeStep },
    { title: "Speed", unit: "knots", by: (track) => numberOf(track.speed), text: (track) => figure(track.speed, 0) },
    { title: "Direction", unit: "degrees", by: directionOf, text: directionOf },
];

// Raw units begin at 0 and go to the east; degrees begin at -180
function eastOf(track, raw) {
    return raw ? track.units?.[1] ?? null : track.longitude;
}

// For kind C the flag of the address and the station come after it
function addressOf(track) {
    const address = track.address.toString(16).toUpperCase().padStart(6, "0");
    return track.isCoarse ? `${address} ${track.flag} ${track.station}` : address;
}

// A callsign of spaces is none
function callsignOf(track) {
    return track.callsign || null;
}

// 359.5 and above is rounded to north, which is 0
function directionOf(track) {
    return track.direction === null ? null : Math.round(track.direction) % 360;
}

const state = { library: null, source: null, run: 0, tracks: [], column: 0, ascending: true, rows: ROWS };

function made(name, text, ...inside) {
    const element = document.createElement(name);
    if (text !== null) {
        element.textContent = text;
    }
    element.append(...inside);
    return element;
}

function say(text, isWrong = false) {
    $("status").textContent = text;
    $("status").classList.toggle("wrong", isWrong);
}

// Hides an element or shows it. If the keyboard is in it, it goes to another element first
function hide(id, isHidden, next = $("status")) {
    if (isHidden && $(id).contains(document.activeElement)) {
        next.focus({ preventScroll: true });
    }
    $(id).hidden = isHidden;
}

// The table of aircraft

const isRaw = () => $("raw").checked;
const shownTracks = () => state.tracks.filter((track) => $("all").checked || track.units !== null);

// What is unknown comes last, either way
function compared([first, one], [second, other]) {
    if (first === null || second === null) {
        return (first === null) - (second === null) || one.key - other.key;
    }
    const order = first < second ? -1 : first > second ? 1 : 0;
    return (state.ascending ? order : -order) || one.key - other.key;
}

function sorted(tracks) {
    const { by } = COLUMNS[state.column], raw = isRaw();
    return tracks.map((track) => [by(track, raw), track]).sort(compared).map(([, track]) => track);
}

function cellOf(column, track) {
    const text = column.text(track, isRaw()), isKnown = text !== null;
    const cell = made(column.isName ? "th" : "td", null);
    if (column.isName) {
        cell.scope = "row";
    }
    if (!isKnown) {
        cell.append(made("span", UNKNOWN_TEXT));
        cell.firstChild.setAttribute("aria-hidden", "true");
        const said = made("span", "unknown");
        said.className = "said";
        cell.append(said);
    } else if (column.exact && !isRaw()) {
        const exact = made("data", String(text));
        exact.value = String(column.exact(track));
        cell.append(exact);
    } else {
        cell.textContent = String(text);
    }
    return cell;
}

function showTable() {
    const tracks = sorted(shownTracks()), rows = tracks.slice(0, state.rows);
    $("rows").replaceChildren(...rows.map((track) => made("tr", null, ...COLUMNS.map((column) => cellOf(column, track)))));
    $("caption").textContent = `${counted(tracks.length, "aircraft", "aircraft")}${$("all").checked ? "" : " with a position"}`;
    hide("more", tracks.length <= rows.length, $("table"));
    $("more").textContent = `Show ${grouped(Math.min(ROWS, tracks.length - rows.length))} more of ${grouped(tracks.length)} aircraft`;
    for (const [index, head] of [...$("heads").children].entries()) {
        const { unit, isPlace } = COLUMNS[index], word = unit ?? (isPlace ? (isRaw() ? "units" : "degrees") : "");
        head.querySelector(".unit").textContent = word ? ` ${word}` : "";
        head.querySelector(".mark").textContent = index !== state.column ? "" : state.ascending ? "\u25b2" : "\u25bc";
        index === state.column ? head.setAttribute("aria-sort", state.ascending ? "ascending" : "descending") : head.removeAttribute("aria-sort");
    }
}

function sortBy(index) {
    state.ascending = state.column === index ? !state.ascending : true;
    state.column = index;
    showTable();
    $("sorted").textContent = `Sorted by ${COLUMNS[index].title.toLowerCase()}, ${state.ascending ? "ascending" : "descending"}.`;
}

function makeHeads() {
    for (const [index, { title }] of COLUMNS.entries()) {
        const spans = ["mark", "unit"].map((name) => { const span = made("span", ""); span.className = name; return span; });
        spans[0].setAttribute("aria-hidden", "true");
        const button = made("button", title, ...spans), head = made("th", null, button);
        button.type = "button";
        button.addEventListener("click", () => sortBy(index));
        head.scope = "col";
        $("heads").append(head);
    }
}

// What was read

function showFacts(reader) {
    const facts = [["Clock", `${reader.fleet.clock} ms`, "clock"], ["Messages taken", grouped(reader.taken), "taken"]];
    facts.push(["Messages refused", grouped(reader.refused.reduce((sum, [, count]) => sum + count, 0)), "refused"]);
    if (reader instanceof CaptureReader) {
        facts.push(["Blocks", grouped(reader.blocks), "blocks"], ["Bad blocks", grouped(reader.bad), "bad"]);
    } else {
        facts.push(["Lines", grouped(reader.lines), "lines"], ["Lines without a message", grouped(reader.without), "without"]);
    }
    $("facts").replaceChildren(...facts.map(([title, value, id]) => {
        const said = made("dd", value);
        said.id = id;
        return made("div", null, made("dt", title), said);
    }));
    const rows = reader.refused.map(([number, count]) => made("tr", null, made("td", String(number)), made("td", WORDS[number]), made("td", grouped(count))));
    $("reasons").replaceChildren(...rows);
    hide("refusals", rows.length === 0);
}

// What is wrong with a file, in words; null if nothing is
function faultOf(reader, size) {
    if (size === 0) {
        return "is empty.";
    }
    if (reader instanceof CaptureReader && reader.blocks === reader.bad) {
        return `is no capture: none of its ${counted(reader.blocks, "block")} of ${BLOCK} bytes is good. Nor does it begin with lines of a receiver.`;
    }
    if (reader instanceof LineReader && reader.without === reader.lines) {
        return "has no line with a message. Such a line is *HEX; or HEX, @COUNTER HEX; without the space, or TIME HEX.";
    }
    return null;
}

function summary(reader, name, size, isStopped) {
    const fault = isStopped ? null : faultOf(reader, size);
    const part = isStopped ? ` Stopped: this is what was read until then.` : "";
    const full = reader.answers.get(6) ? ` ${counted(reader.answers.get(6), "message")} of new aircraft had no place: choose more room.` : "";
    const read = reader instanceof CaptureReader ? `${counted(reader.blocks, "block")}, ${grouped(reader.bad)} bad` : counted(reader.lines, "line");
    say(fault ? `${name} ${fault}` : `${name}: ${counted(state.tracks.length, "aircraft", "aircraft")} in ${read}.${part}${full}`, fault !== null);
}

// Reading, in pieces, so that the page goes on

const pause = () => new Promise((resolve) => setTimeout(resolve));

async function work(steps, run) {
    let begun = performance.now();
    for (const _ of steps) {
        if (performance.now() - begun > BUSY) {
            await pause();
            begun = performance.now();
        }
        if (run !== state.run || state.isStopped) {
            return;
        }
    }
}

function showProgress(name, at, size) {
    hide("progress", false);
    hide("stop", false);
    $("progress").value = size ? at / size : 1;
    if (size >= LARGE && at === 0) {
        say(`${name} has ${grouped(Math.round(size / 2 ** 20))} MB: it is read in pieces, and that takes a while.`);
    }
}

async function readAll(reader, blob, name, run) {
    for (let at = 0; at < blob.size && run === state.run && !state.isStopped; at += PIECE) {
        showProgress(name, at, blob.size);
        await work(reader.take(new Uint8Array(await blob.slice(at, at + PIECE).arrayBuffer())), run);
        await pause();
    }
    if (run === state.run && !state.isStopped) {
        await work(reader.end(), run);
    }
}

// The milliseconds from line to line. If they are wrong, the field is opened
function stepChosen() {
    if (!$("step").checkValidity()) {
        $("times").open = true;
        throw new Error("the milliseconds from line to line are no whole number from 0 to 86,400,000");
    }
    return $("step").valueAsNumber;
}

// A file whose first block is good is a capture, whatever its bytes say
function readerFor(head) {
    const [records = null] = state.library.records(head), step = records === null && isLines(head) ? stepChosen() : null;
    const [count, places] = $("room").value.split("x").map(Number), fleet = new Fleet(state.library, count, places);
    return step === null ? new CaptureReader(fleet) : new LineReader(fleet, step);
}

async function read(blob, name) {
    const run = ++state.run;
    Object.assign(state, { source: { blob, name }, isStopped: false, rows: ROWS });
    let reader = null;
    try {
        reader = readerFor(new Uint8Array(await blob.slice(0, BLOCK).arrayBuffer()));
        await readAll(reader, blob, name, run);
        if (run === state.run) {
            show(reader, blob, name);
        }
    } catch (why) {
        run === state.run && showNothing(`${name} cannot be read: ${why.message}`);
    } finally {
        reader?.fleet.close();
        if (run === state.run) {
            hide("progress", true);
            hide("stop", true);
        }
    }
}

function show(reader, blob, name) {
    state.tracks = reader.fleet.tracks();
    hide("result", false);
    showFacts(reader);
    showTable();
    summary(reader, name, blob.size, state.isStopped);
}

// The aircraft of the file before must not stand below what is said of this one
function showNothing(why) {
    state.tracks = [];
    showTable();
    hide("result", true);
    say(why, true);
}

// What the page is given

function readFiles(files) {
    if (files.length > 0) {
        read(files[0], files.length > 1 ? `${files[0].name}, the first of ${files.length} files,` : files[0].name);
    }
}

const again = () => state.source && read(state.source.blob, state.source.name);

function listen() {
    $("file").addEventListener("change", () => readFiles($("file").files));
    $("sample").addEventListener("click", () => read(new Blob([bytesOf(SAMPLE)]), SAMPLE_NAME));
    $("lines").addEventListener("click", () => read(new Blob([$("pasted").value]), "What was pasted"));
    $("stop").addEventListener("click", () => { state.isStopped = true; });
    $("more").addEventListener("click", () => { state.rows += ROWS; showTable(); });
    ["room", "step"].forEach((id) => $(id).addEventListener("change", again));
    ["degrees", "raw", "all"].forEach((id) => $(id).addEventListener("change", showTable));
    for (const name of ["dragover", "dragleave", "drop"]) {
        document.addEventListener(name, (event) => {
            if (!event.dataTransfer.types.includes("Files")) {
                return; // text goes where it is dropped
            }
            event.preventDefault();
            $("zone").classList.toggle("over", name === "dragover");
        });
    }
    document.addEventListener("drop", (event) => readFiles(event.dataTransfer.files));
}

makeHeads();
try {
    state.library = await load(bytesOf(MODULE));
    listen();
    say("Nothing was read yet.");
} catch (why) {
    say(`This browser cannot run the decoder: ${why.message}`, true);
}
