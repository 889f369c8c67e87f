// Loads the module of WebAssembly from each sort of source that bindings/js takes, and prints the version of each:
//
//     node sources.mjs addercoil.wasm
import { readFileSync } from "node:fs";
import { pathToFileURL } from "node:url";
import { load } from "../../bindings/js/addercoil.js";

const path = process.argv[2], bytes = readFileSync(path), url = pathToFileURL(path);
const inside = `data:application/wasm;base64,${bytes.toString("base64")}`;
for (const source of [bytes, await WebAssembly.compile(bytes), path, url, String(url), inside]) {
    console.log((await load(source)).version);
}
