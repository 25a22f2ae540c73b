// What Node imports: the module of WebAssembly is read from the file beside this package's scripts.

import { readFileSync } from "node:fs";
import { start } from "./library.mjs";
import { loadNow } from "./timefd.mjs";

start(loadNow(readFileSync(new URL("../timefd.wasm", import.meta.url))));

export * from "./api.mjs";
