// Opens the library: the module and the table that lie beside this file, or others.
import { bind } from "./api.mjs";
import { Engine } from "./engine.mjs";

// A module with an instruction on 128 bits, which is the latest thing that the library's module needs.
const PROBE = new Uint8Array([0, 97, 115, 109, 1, 0, 0, 0, 1, 5, 1, 96, 0, 1, 123, 3, 2, 1, 0, 10, 10, 1, 8, 0, 65, 0, 253, 15, 253, 98, 11]);

/** Whether this machine runs the library: Node 18 or later, and browsers of 2023 or later. */
export const isSupported = () =>
  typeof WebAssembly === "object" && typeof BigInt === "function" && typeof DecompressionStream === "function" && WebAssembly.validate(PROBE);

const isNode = Boolean(globalThis.process?.versions?.node);

async function bytesOf(url) {
  if (url.protocol === "file:" && isNode) {
    const { readFile } = await import("node:fs/promises");
    return readFile(url);
  }
  const answer = await fetch(url);
  if (!answer.ok) throw new Error(`${url} can't be read: ${answer.status}`);
  return new Uint8Array(await answer.arrayBuffer());
}

/** The bytes that gzip made smaller. */
async function unpacked(bytes) {
  if (bytes[0] !== 0x1f || bytes[1] !== 0x8b) return bytes;
  if (isNode) return (await import("node:zlib")).gunzipSync(bytes);
  const stream = new Blob([bytes]).stream().pipeThrough(new DecompressionStream("gzip"));
  return new Uint8Array(await new Response(stream).arrayBuffer());
}

/**
 * The names of the package, over a table: `module` and `table` are bytes, gzip or not, else the files beside this one.
 * `rules` is "library", or "crate" for those of the Rust crate phonenumber.
 */
export async function load({ module, table, rules = "library" } = {}) {
  if (!isSupported())
    throw new Error("phonenumber-proved needs WebAssembly with instructions on 128 bits, BigInt and DecompressionStream: Node 18, or a browser of 2023 or later");
  for (const bytes of [module, table])
    if (bytes != null && !(bytes instanceof Uint8Array)) throw new TypeError("a module or a table is bytes, in a Uint8Array");
  if (rules !== "library" && rules !== "crate") throw new TypeError(`no rules: ${String(rules)}`);
  const file = async (bytes, name) => unpacked(bytes ?? (await bytesOf(new URL(name, import.meta.url))));
  const [code, records] = await Promise.all([
    file(module, "./phone.wasm.gz").then((bytes) => WebAssembly.compile(bytes)),
    file(table, "./world.compact.gz"),
  ]);
  return bind(new Engine(await WebAssembly.instantiate(code, {}), records, rules === "crate" ? 1 : 0));
}
