// node --no-warnings tools/wasi.mjs PROGRAM [WORDS]: runs a C program that tools/cc made for wasm32, with this
// process's standard streams and its folder.
import { readFile } from "node:fs/promises";
import { WASI } from "node:wasi";

const [program, ...words] = process.argv.slice(2);
const preopens = { ".": ".", "/tmp": "/tmp" };
const wasi = new WASI({ version: "preview1", args: [program, ...words], env: {}, preopens, returnOnExit: true });
const module = await WebAssembly.compile(await readFile(program));
process.exitCode = wasi.start(await WebAssembly.instantiate(module, wasi.getImportObject()));
