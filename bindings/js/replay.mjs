// The rows of crates/replay/data that are calls of the module, asked in JavaScript: node replay.mjs PACKAGE DATA
// A row that differs is printed; the last lines are the count of each call, and `replay: ok`.
import { readFileSync } from "node:fs";
import { pathToFileURL } from "node:url";

const [folder, data] = process.argv.slice(2);
const { Engine, PhoneError } = await import(pathToFileURL(`${folder}/engine.mjs`));

async function unpacked(name) {
  const stream = new Blob([readFileSync(`${folder}/${name}`)]).stream().pipeThrough(new DecompressionStream("gzip"));
  return new Uint8Array(await new Response(stream).arrayBuffer());
}
const module = await WebAssembly.compile(await unpacked("phone.wasm.gz"));

const encoder = new TextEncoder(), decoder = new TextDecoder("utf-8", { fatal: true });

/** A field of a row with its escapes undone, as bytes. */
function plain(field) {
  const out = [];
  const escape = /\\(?:x([0-9a-fA-F]{2})|u([0-9a-fA-F]{4})|U([0-9a-fA-F]{8})|(.))|[^\\]+/gu;
  for (const [all, byte, short, long, sign] of field.matchAll(escape)) {
    if (byte) out.push(parseInt(byte, 16));
    else if (short ?? long) out.push(...encoder.encode(String.fromCodePoint(parseInt(short ?? long, 16))));
    else if (sign) out.push(...encoder.encode({ t: "\t", n: "\n" }[sign] ?? sign));
    else out.push(...encoder.encode(all));
  }
  return new Uint8Array(out);
}
/** The same as a text; undefined where the bytes are none. */
function textOf(field) {
  try {
    return decoder.decode(plain(field));
  } catch {
    return undefined;
  }
}

// The engines of databases, by rules: 0 those of libphonenumber, 1 those of the crate.
const engines = new Map();
async function engine(name, rules) {
  const key = `${name} ${rules}`;
  if (!engines.has(key)) {
    const made = new Engine(await WebAssembly.instantiate(module, {}), readFileSync(`${data}/databases/${name}.json`), rules);
    engines.set(key, made);
  }
  return engines.get(key);
}

const KINDS = ["FixedLine", "Mobile", "FixedLineOrMobile", "TollFree", "PremiumRate", "SharedCost", "PersonalNumber", "Voip", "Pager", "Uan",
  "Emergency", "Voicemail", "ShortCode", "StandardRate", "Carrier", "NoInternational", "Unknown"];
const LENGTHS = ["Possible", "PossibleLocally", "TooShort", "TooLong", "WrongLength", "UnknownCode"];
const MATCHES = ["Exact", "Number", "National", "End", "Different"];
const COSTS = ["TOLL_FREE", "STANDARD_RATE", "PREMIUM_RATE", "UNKNOWN_COST"];
const hintOf = (field) => (field === "-" ? "" : field);
const numberOf = (code, value, zeros, extension) => ({ value: BigInt(value), code: Number(code), source: 3, zeros: Number(zeros),
  extension: extension?.startsWith("=") ? extension.slice(1) : undefined, carrier: undefined });
const orNone = (text) => (text === undefined ? "-" : `=${text}`);

/** What stands for a refusal in a row, in place of what a call throws. */
function told(call) {
  try {
    return call();
  } catch (error) {
    if (!(error instanceof PhoneError)) throw error;
    return { 20: "UnknownCode", 34: "UnknownRegion" }[error.status] ?? `error\t${error.status}`;
  }
}
const yes = (is) => (is ? "yes" : "no");

// Each call: how many arguments stand behind the database, and its answer.
const CALLS = {
  "report-line": [2, (by, hint, line) => by.report(line, hintOf(hint))],
  library: [2, (by, hint, text) => reported(by, hint, text)],
  report: [2, (by, hint, text) => reported(by, hint, text)],
  typed: [2, (by, hint, keys) => [...keys].map((_, i, all) => by.typed(all.slice(0, i + 1).join(""), hintOf(hint))).join("|")],
  possible: [3, (by, ...parts) => LENGTHS[by.possibility(numberOf(...parts))]],
  "possible-text": [2, (by, hint, text) => LENGTHS[by.possibilityOfText(text, hintOf(hint))]],
  same: [2, (by, one, two) => MATCHES[by.compare(one, two)]],
  "dialled-from": [5, (by, code, value, zeros, extension, region) => `=${by.dialledFrom(numberOf(code, value, zeros, extension), region)}`],
  example: [2, (by, region, kind) => {
    const it = by.example(region, KINDS.indexOf(kind));
    if (!it) return "-";
    const source = ["plus", "idd", "number", "default"][it.source];
    return [it.code, source, "0".repeat(it.zeros) + it.value, orNone(it.extension), orNone(it.carrier)].join("\t");
  }],
  regions: [0, (by) => `=${by.regions().join(" ")}`],
  codes: [0, (by) => `=${by.codes().join(" ")}`],
  found: [2, (by, hint, text) => {
    let out = "", last = 0, numbers = "";
    for (const [start, end] of by.find(text, hintOf(hint))) {
      out += `${text.slice(last, start)}{${text.slice(start, end)}}`;
      last = end;
      numbers += `\t${by.key(by.parse(text.slice(start, end), hintOf(hint)))}`;
    }
    return out + text.slice(last) + numbers;
  }],
  short: [2, (by, region, text) => {
    const it = by.short(text, region);
    return [yes(it.isPossible), yes(it.isValid), COSTS[it.cost], yes(it.isCarrierSpecific), yes(it.isEmergency), yes(it.reachesEmergency)].join("\t");
  }],
};

/** The report of a text beside its parts, as rows have it: the report's line, and extension, carrier and national number. */
function reported(by, hint, text) {
  const line = by.report(text, hintOf(hint));
  if (!line.startsWith("ok\t")) return line;
  const it = by.parse(text, hintOf(hint));
  return [line, it.extension ?? "-", it.carrier ?? "-", "0".repeat(it.zeros) + it.value].join("\t");
}

const FILES = { report: ["examples", "report", "numbers", "readings"], library: ["library"], "report-line": ["report-lines"], typed: ["typed"],
  possible: ["more", "rules"], "possible-text": ["more", "rules"], same: ["more", "rules"], "dialled-from": ["more"], example: ["more", "rules"],
  regions: ["more"], codes: ["more"], found: ["found", "rules"], short: ["short"] };
const counts = {}, left = {};
let differ = 0;
for (const [name, files] of Object.entries(FILES)) {
  for (const file of files) {
    for (const line of readFileSync(`${data}/${file}.tsv`, "utf8").split("\n")) {
      const [call, database, ...fields] = line.split("\t");
      const rules = name === "library" || name === "typed" || name === "short" || call.endsWith("-library") ? 0 : 1;
      if (call !== name && call !== `${name}-library`) continue;
      const [width, answer] = CALLS[name];
      const given = fields.slice(0, width).map(textOf), wanted = textOf(fields[width]);
      if (given.includes(undefined)) {
        left[name] = (left[name] ?? 0) + 1;
        continue;
      }
      const by = await engine(database, rules);
      let it = told(() => answer(by, ...given));
      const short = wanted.startsWith("error\t") ? wanted.split("\t").slice(0, 2).join("\t") : wanted;
      if (it.startsWith("error\t")) it = it.split("\t").slice(0, 2).join("\t");
      counts[name] = (counts[name] ?? 0) + 1;
      if (it !== short && differ++ < 20) console.error(`${line}\n  here: ${JSON.stringify(it)}`);
    }
  }
}
for (const [name, count] of Object.entries(counts)) console.log(`${name}: ${count}${left[name] ? `, and ${left[name]} that are no texts` : ""}`);
const all = Object.values(counts).reduce((a, b) => a + b, 0);
console.log(differ ? `replay: ${differ} of ${all} differ` : `replay: ok, ${all} rows`);
process.exit(differ ? 1 : 0);
