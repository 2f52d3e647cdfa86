// How long lines and openings take in Node, beside the C library in the same minute: node speed.mjs PACKAGE LINES [C [TURNS]]
// LINES has a region, `-` for none, a tab and a text on each line; C is the program that bindings/c builds, bindings/c/out/lines. In each turn,
// seven where TURNS names no other count, C's program and new processes of Node are asked one after the other, by libphonenumber's rules. Told
// are the middle of each and of their ratios: of the report of a line, the least of five passes over all, and in the first pass; of the first
// opening of the metadata in a process, whose calls are compiled then, and of a second one; and what `load` takes, which also reads, unpacks
// and compiles the module.
import { spawnSync } from "node:child_process";
import { readFileSync } from "node:fs";
import { fileURLToPath, pathToFileURL } from "node:url";

const own = fileURLToPath(import.meta.url), here = fileURLToPath(new URL(".", import.meta.url)), PASSES = 5;
const middle = (all) => all.toSorted((a, b) => a - b)[all.length >> 1];
const timed = async (call) => {
  const began = performance.now();
  await call();
  return (performance.now() - began) / 1000;
};

const ASKED = {
  async load(folder) {
    const { load } = await import(pathToFileURL(`${folder}/load.mjs`));
    return { load: await timed(() => load()) };
  },
  async open(folder) {
    const { Engine } = await import(pathToFileURL(`${folder}/engine.mjs`)), instances = [];
    const unpacked = async (name) => {
      const stream = new Blob([readFileSync(`${folder}/${name}`)]).stream().pipeThrough(new DecompressionStream("gzip"));
      return new Uint8Array(await new Response(stream).arrayBuffer());
    };
    const module = await WebAssembly.compile(await unpacked("phone.wasm.gz")), table = await unpacked("world.compact.gz");
    for (let i = 0; i < 2; i++) instances.push(await WebAssembly.instantiate(module, {}));
    const [first, again] = [await timed(() => new Engine(instances[0], table)), await timed(() => new Engine(instances[1], table))];
    return { first, again };
  },
  async lines(folder, lines) {
    const { load } = await import(pathToFileURL(`${folder}/load.mjs`)), by = await load(), passes = [];
    const asked = readFileSync(lines, "utf8").split("\n").slice(0, -1).map((line) => {
      const at = line.indexOf("\t"), region = line.slice(0, at);
      return [line.slice(at + 1), region === "-" ? "" : region];
    });
    for (let i = 0; i < PASSES; i++) passes.push(await timed(() => { for (const [text, region] of asked) by.report(text, region); }) / asked.length);
    return { pass: passes[0], line: Math.min(...passes) };
  },
};

function byC(program, lines) {
  const words = [`${here}/../../data/world.compact`, String(PASSES), "library"];
  const told = spawnSync(program, words, { input: readFileSync(lines), maxBuffer: 1 << 28, encoding: "utf8" });
  const [, opened, line] = /C: load ([\d.]+) ms\nC: (\d+) ns a line/.exec(told.stderr);
  return { opened: opened / 1e3, line: line / 1e9 };
}

const [first, ...rest] = process.argv.slice(2);
if (first.startsWith("--")) console.log(JSON.stringify(await ASKED[first.slice(2)](...rest)));
else {
  const [lines, program = `${here}/../c/out/lines`, turns = "7"] = rest, all = [];
  for (let turn = 0; turn < +turns; turn++) {
    const told = { c: byC(program, lines) };
    for (const what in ASKED) Object.assign(told, JSON.parse(spawnSync(process.execPath, [own, `--${what}`, first, lines], { encoding: "utf8" }).stdout));
    all.push(told);
  }
  for (const [what, name, of, unit, factor] of [["a line", "line", "line", "us", 1e6], ["a line of the first pass", "pass", "line", "us", 1e6],
    ["the first opening", "first", "opened", "ms", 1e3], ["a second opening", "again", "opened", "ms", 1e3], ["load", "load", "opened", "ms", 1e3]]) {
    const [c, js] = [all.map((it) => it.c[of]), all.map((it) => it[name])], ratio = middle(all.map((it) => it[name] / it.c[of]));
    console.log(`${what}: C ${(middle(c) * factor).toFixed(1)} ${unit}, here ${(middle(js) * factor).toFixed(1)}; the middle of ${turns} ratios ${ratio.toFixed(2)}`);
  }
}
