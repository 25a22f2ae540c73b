// What browsers import: the WebAssembly module is fetched from the folder of this package's scripts.

import { start } from "./library.mjs";
import { load } from "./timefd.mjs";

const address = new URL("../timefd.wasm", import.meta.url);
const answer = await fetch(address);
if (!answer.ok) throw new Error(`timefd: ${address} answers ${answer.status}: put timefd.wasm there`);
start(await load(await answer.arrayBuffer()));

export * from "./api.mjs";
