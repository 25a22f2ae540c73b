// Runs all checks under Node, over the package `timefd` in node_modules above:   node node.mjs FOLDER
// The folder has rows of the page's library, web.in and web.out.

import { readFileSync } from "node:fs";
import { fileURLToPath } from "node:url";
import * as timefd from "timefd";
import { allChecks } from "./checks.mjs";

const inPackage = (path) => new URL(path, import.meta.resolve("timefd"));
const { loadNow } = await import(inPackage("timefd.mjs"));
const calls = loadNow(readFileSync(fileURLToPath(inPackage("../timefd.wasm"))));
const [questions, answers] = ["web.in", "web.out"].map((name) => readFileSync(`${process.argv[2]}/${name}`, "utf8"));
const checks = allChecks(timefd, calls, questions, answers);
console.log(JSON.stringify(checks));
