// What users of the package count on, in Node: node tests.mjs PACKAGE ROWS [LINES REPORT [LINES REPORT_BY_CRATE]]
// ROWS is bindings/sql_rows.tsv; LINES has a region, `-` for none, a tab and a text on each line, REPORT the report line of each. The last
// line is `js: ok`; the first difference ends it with status 1.
import { readFileSync } from "node:fs";
import { pathToFileURL } from "node:url";

const [folder, rows, ...pairs] = process.argv.slice(2);
const phones = await import(pathToFileURL(`${folder}/index.mjs`));
const { load } = await import(pathToFileURL(`${folder}/load.mjs`));
const { Engine, PhoneError } = await import(pathToFileURL(`${folder}/engine.mjs`));
const { parsePhoneNumber, AsYouType } = phones;

function must(told, wanted, what) {
  const [a, b] = [JSON.stringify(told) ?? "undefined", JSON.stringify(wanted) ?? "undefined"];
  if (a === b) return;
  console.error(`js: ${what}: ${a}, and not ${b}`);
  process.exit(1);
}
function thrown(call) {
  try {
    call();
  } catch (error) {
    return [error.name, error.message];
  }
  return undefined;
}

// The rows that all bindings share.
const KINDS = { FixedLine: "FIXED_LINE", Mobile: "MOBILE", FixedLineOrMobile: "FIXED_LINE_OR_MOBILE", TollFree: "TOLL_FREE", PremiumRate: "PREMIUM_RATE",
  SharedCost: "SHARED_COST", PersonalNumber: "PERSONAL_NUMBER", Voip: "VOIP", Pager: "PAGER", Uan: "UAN", Voicemail: "VOICEMAIL" };
let count = 0;
for (const line of readFileSync(rows, "utf8").split("\n").slice(1, -1)) {
  const [text, region, e164, international, national, rfc3966, type, country, valid, refusal] = line.split("\t").map((it) => (it === "-" ? undefined : it));
  const it = parsePhoneNumber(text, region);
  const told = it && [it.number, it.formatInternational(), it.formatNational(), it.getURI(), it.getType(), it.country, it.isValid() ? "1" : "0"];
  must(told, refusal ? undefined : [e164, international, national, rfc3966, KINDS[type], country, valid], line);
  count++;
}
console.log(`rows: ${count}`);

// What no row says.
const number = parsePhoneNumber("03-331 6005 ext. 12", "NZ");
must([number.countryCallingCode, number.nationalNumber, number.ext, number.source], ["64", "33316005", "12", "default"], "parts");
must(parsePhoneNumber("06 698", { defaultCountry: "IT" }).nationalNumber, "06698", "a leading zero");
must(number.format("E.164"), "+6433316005", "E.164");
must(thrown(() => number.format("x")), ["TypeError", "no format: x"], "no format");
must(thrown(() => phones.parsePhoneNumberWithError("call me", "NZ")), ["ParseError", "NOT_A_NUMBER"], "a refusal");
must(thrown(() => phones.parsePhoneNumberWithError("03-331 6005")), ["ParseError", "INVALID_COUNTRY"], "no region");
must(thrown(() => parsePhoneNumber(3, "NZ")), ["TypeError", "a phone number is read of a string"], "no text");
must(parsePhoneNumber("03-331 6005", "nz"), undefined, "a region that is none");
must([phones.isValidPhoneNumber("03-331 6005", "NZ"), phones.isPossiblePhoneNumber("03-33", "NZ")], [true, false], "questions");
must([phones.validatePhoneNumberLength("03-33", "NZ"), phones.validatePhoneNumberLength("03-331 6005", "NZ"), phones.validatePhoneNumberLength("x")],
  ["TOO_SHORT", undefined, "NOT_A_NUMBER"], "lengths");
must(number.isEqual(parsePhoneNumber("+6433316005;ext=12")), true, "equal");
number.setExt("7");
must(number.formatNational(), "03 331 6005 ext. 7", "another extension");
must(parsePhoneNumber("+64 3 331 6005").formatFrom("US"), "011 64 3 331 6005", "from abroad");
const found = phones.findPhoneNumbersInText("\u{1F4DE} 03-331 6005, \u00fcber 09 887 6986", "NZ");
must(found.map((it) => [it.startsAt, it.endsAt, it.number.number]), [[3, 14, "+6433316005"], [21, 32, "+6498876986"]], "found");
for (const [leniency, places] of [["POSSIBLE", [[0, 13], [15, 30]]], ["VALID", []], [undefined, []]]) {
  const all = phones.findPhoneNumbersInText("1 650 253 000, +1 555 253 0000", { defaultCountry: "NZ", leniency });
  must(all.map((it) => [it.startsAt, it.endsAt]), places, `found if ${leniency}`);
}
must([...phones.searchPhoneNumbersInText("none", "NZ")], [], "none found");
const typing = new AsYouType("NZ");
must([..."033316005"].map((key) => typing.input(key)).pop(), "03 331 6005", "typed");
must([typing.getNumberValue(), typing.getChars(), typing.caret(3), typing.isValid()], ["+6433316005", "033316005", 4, true], "typing");
typing.reset();
must(typing.input("+643"), "+64 3", "typed anew");
must([phones.getCountries().length, phones.isSupportedCountry("NZ"), phones.isSupportedCountry("XX")], [245, true, false], "countries");
must(phones.getCountries().map((it) => phones.getCountryCallingCode(it)).filter((it) => !/^\d{1,3}$/.test(it)), [], "calling codes");
must([phones.getCountryCallingCode("NZ"), thrown(() => phones.getCountryCallingCode("XX"))], ["64", ["Error", "Unknown country: XX"]], "codes");
for (const region of phones.getCountries()) must(phones.getExampleNumber(region).isValid(), true, `example of ${region}`);
must(phones.getExampleNumber("NZ", "TOLL_FREE").getType(), "TOLL_FREE", "example");
must(phones.compareTexts("+64 3 331 6005", "03 331 6005"), "national", "compared");
must(phones.report("03-331 6005", "NZ").split("\t")[1], "+6433316005", "report");
must(phones.columns(["03-331 6005", null, "x"], { regions: "NZ", columns: ["e164", "refusal", "valid"] }),
  { e164: ["+6433316005", undefined, undefined], refusal: [undefined, undefined, "NOT_A_NUMBER"], valid: [true, undefined, undefined] }, "columns");
must(phones.columns(["0171 1234567", "03-331 6005"], { regions: ["DE", "NZ"] }).country, ["DE", "NZ"], "columns by region");
// A row of a column is what the calls for one text say: examples of all regions, texts that are none, under hints of each sort.
const texts = ["", "call me", "03-331 6005 ext. 12", "\ud800 03-331 6005", "\uff0b64 3 331 6005", "0".repeat(300), null, undefined];
for (const region of phones.getCountries()) {
  const it = phones.getExampleNumber(region);
  texts.push(it.number, it.formatNational(), it.formatInternational(), `${it.getURI()};ext=7`, it.number.slice(0, 6));
}
const names = ["e164", "international", "national", "rfc3966", "type", "country", "valid", "callingCode", "nationalNumber", "extension", "refusal"];
for (const regions of ["", "NZ", "xx", texts.map((_, i) => ["NZ", undefined, "US", "", "ZZ", null][i % 6])]) {
  const told = phones.columns(texts, { regions, columns: names });
  texts.forEach((text, i) => {
    const region = Array.isArray(regions) ? regions[i] ?? "" : regions;
    let it, refusal;
    if (text != null) try { it = phones.parsePhoneNumberWithError(text, region); } catch (error) { refusal = error.message; }
    const wanted = [it?.number, it?.formatInternational(), it?.formatNational(), it?.getURI(), it?.getType(), it?.country, it?.isValid(),
      it?.countryCallingCode, it?.nationalNumber, it?.ext, refusal];
    must(names.map((name) => told[name][i] ?? null), wanted.map((field) => field ?? null), `column of ${text} under ${region}`);
  });
}
must(phones.columns([], { regions: "NZ" }).e164, [], "no rows");
must(thrown(() => phones.columns(["1"], { columns: ["kind"] })), ["TypeError", "no column: kind"], "no column");
must(thrown(() => phones.columns(["1", 2])), ["TypeError", "a phone number is read of a string"], "no text in a column");
console.log(`columns: ${4 * texts.length} rows`);
must(phones.tableVersion().startsWith("libphonenumber "), true, "version");
must(parsePhoneNumber("0".repeat(1000000), "NZ"), undefined, "a long text");
must(parsePhoneNumber("\ud800 03-331 6005", "NZ")?.number, "+6433316005", "a lone surrogate");

// Memory: what is held after many calls is what was held after some; and each request refused in turn leaves all as it was.
const module = await WebAssembly.compile(await unpacked("phone.wasm.gz"));
const table = await unpacked("world.compact.gz");
async function unpacked(name) {
  const stream = new Blob([readFileSync(`${folder}/${name}`)]).stream().pipeThrough(new DecompressionStream("gzip"));
  return new Uint8Array(await new Response(stream).arrayBuffer());
}
const instance = await WebAssembly.instantiate(module, {});
let start = performance.now();
const engine = new Engine(instance, table);
console.log(`open: ${(performance.now() - start).toFixed(0)} ms, ${(engine.memory / 2 ** 20).toFixed(1)} MB`);
const ask = (i) => engine.report(`03-331 ${6000 + (i % 1000)} ext. ${i}`, "NZ");
for (let i = 0; i < 2000; i++) ask(i);
const held = instance.exports.heap_taken();
for (let i = 0; i < 20000; i++) ask(i);
must(String(instance.exports.heap_taken()), String(held), "memory");
let refused = 0;
// The heap is filled but for some blocks, and gets no more memory, so that each request of a call is refused in turn.
instance.exports.phone_memory_most(0);
const kept = [];
for (let size = 1 << 24; size >= 16; size >>= 1) {
  for (let at; (at = instance.exports.phone_memory(size)) !== 0; ) kept.push(at);
}
for (let isTold = false; !isTold && kept.length; ) {
  try {
    must(ask(1).split("\t")[1], "+6433316001", "with little memory");
    isTold = true;
  } catch (error) {
    must([error.name, error.status], ["PhoneError", 7], "refused memory");
    refused++;
    instance.exports.phone_memory_back(kept.pop());
  }
}
for (const at of kept) instance.exports.phone_memory_back(at);
instance.exports.phone_memory_most(-1);
must(ask(2).split("\t")[1], "+6433316002", "after refused memory");
must(refused > 0, true, "memory is refused");
console.log(`memory: refused ${refused} times`);

// Hostile callers: values of every kind in the place of every argument, objects that change while they are looked at, tables that are none. Each
// call answers or throws an error with words, and all is afterwards as it was.
{
  const is = () => must(parsePhoneNumber("03-331 6005 ext. 7", "NZ")?.formatNational(), "03 331 6005 ext. 7", "after a hostile caller");
  const turns = (...all) => { let at = 0; return () => all[at++ % all.length]; };
  const long = "1".repeat(100000);
  /** An object whose text, length and items are others each time. */
  const shifty = () => ({ toString: turns("1", long), valueOf: turns(1, long), [Symbol.toPrimitive]: turns("1", long), get length() { return this.next(); },
    next: turns(0, 1, 3), get 0() { return this.item(); }, item: turns("1", long, 7, null), get defaultCountry() { return this.region(); }, region: turns("NZ", long, {}) });
  const values = () => [undefined, null, true, 0, -1, 1.5, NaN, Infinity, 2 ** 53, 5n, -1n, "", "NZ", "ZZ", "\ud800", "\0", "+64 3 331 6005", long, "\u0663".repeat(3000), Symbol("s"),
    {}, [], [1], ["NZ"], [["NZ"]], () => "NZ", new String("NZ"), new Uint8Array(9), new Proxy({}, { get: () => long }), new Proxy([], { get: (_, name) => name === "length" ? 1e3 : {} }),
    { defaultCountry: "NZ" }, { defaultCountry: {} }, { get defaultCountry() { throw new RangeError("mine"); } }, { length: -1 }, { length: 2 ** 40 }, { __proto__: null }, shifty()];
  const it = parsePhoneNumber("+64 3 331 6005 ext. 7"), calls = [];
  for (const name of ["parsePhoneNumber", "parsePhoneNumberWithError", "isValidPhoneNumber", "isPossiblePhoneNumber", "validatePhoneNumberLength", "findPhoneNumbersInText",
    "compareTexts", "report", "getExampleNumber", "getCountryCallingCode", "isSupportedCountry"]) calls.push([name, phones[name]]);
  calls.push(["searchPhoneNumbersInText", (a, b) => [...phones.searchPhoneNumbersInText(a, b)]]);
  calls.push(["columns", (a, b) => phones.columns([a, b, "1"], { regions: b })], ["columns of", (a, b) => phones.columns(a, { regions: [a, b], columns: b })]);
  calls.push(["columns by one", (a, b) => phones.columns(["1"], { regions: a, columns: [b] })], ["columns of many", (a, b) => phones.columns(a, b ?? {})]);
  calls.push(["AsYouType", (a, b) => { const typing = new AsYouType(a); typing.input(b); return [typing.caret(1), typing.getNumberValue(), typing.getChars()]; }]);
  calls.push(["caret", (a) => { const typing = new AsYouType("NZ"); typing.input("03331"); return typing.caret(a); }]);
  calls.push(["format", (a) => it.format(a)], ["formatFrom", (a) => it.formatFrom(a)], ["isEqual", (a) => it.isEqual(a ?? it)], ["PhoneNumber", (a, b) => new phones.PhoneNumber(a ?? b ?? {})]);
  calls.push(["setExt", (a) => { const other = parsePhoneNumber("+64 3 331 6005"); other.setExt(a); return [other.formatNational(), other.getURI(), JSON.stringify(other)]; }]);
  calls.push(["PhoneNumber of parts", (a, b) => new phones.PhoneNumber({ value: a, code: b, source: a, zeros: b, extension: a, carrier: b }).formatNational()]);
  let answered = 0, refused = 0;
  for (const [name, call] of calls) for (const a of values()) for (const b of values()) {
    try {
      call(a, b);
      answered++;
    } catch (error) {
      refused++;
      if (!(error instanceof Error) || error instanceof WebAssembly.RuntimeError || !error.message) must(String(error), "an error with words", name);
    }
    if ((answered + refused) % 64 === 0) is();
  }
  is();
  console.log(`hostile: ${answered} answered, ${refused} refused`);
  // An array whose items ask the library themselves, or grow, while they are read.
  const asks = Array(40).fill("1");
  Object.defineProperty(asks, 7, { get: () => parsePhoneNumber(`+64 3 331 6005 ext. ${"7".repeat(7)}`)?.number });
  Object.defineProperty(asks, 9, { get: turns("1", long, long) });
  must(phones.columns(asks, { regions: "NZ", columns: ["e164"] }).e164[7], "+6433316005", "an item that asks");
  must(phones.columns(["03-331 6005", "09 887 6986"], { regions: "NZ", columns: ["e164"], progress: () => parsePhoneNumber("1".repeat(9000), "NZ") }).e164,
    ["+6433316005", "+6498876986"], "progress that asks");
  is();
  // Tables that are cut, or whose bytes are others: opened or refused, never a trap; what is opened answers or refuses.
  const own = new Engine(await WebAssembly.instantiate(module, {}), table), tables = [];
  for (let i = 0; i < 120; i++) tables.push(table.slice(0, Math.floor(i * i * table.length / 14400)));
  let seed = 7;
  const random = (n) => (seed = (Math.imul(seed, 1103515245) + 12345) >>> 1) % n;
  for (let i = 0; i < 200; i++) {
    const other = table.slice();
    for (let k = random(3); k >= 0; k--) other[random(other.length)] = random(256);
    tables.push(other);
  }
  for (const text of ["", "[", "[]", "null", "{}", "[{}]", "[[[[", "phone_compact 1\n", "phone_compact 2\n", "\ufeff[]", '[{"id":"NZ","country_code":64}]']) tables.push(new TextEncoder().encode(text));
  const count = { opened: 0, refused: 0 };
  for (const bytes of tables) {
    let told;
    try {
      const by = new Engine(await WebAssembly.instantiate(module, {}), bytes);
      told = "opened";
      for (const text of ["03-331 6005", "+1 650 253 0000", "+390236618300", "call me"]) try { by.report(text, "NZ"), by.find(text, "NZ"), by.typed(text, "NZ"); } catch (error) {
        if (!(error instanceof PhoneError)) throw error;
      }
      by.close();
    } catch (error) {
      if (!(error instanceof PhoneError)) must(String(error), "a refusal", "a table");
      told = "refused";
    }
    count[told]++;
  }
  console.log(`tables: ${tables.length}, of which ${count.refused} are refused`);
  own.close();
  must(thrown(() => own.report("1", "NZ"))?.[0], "PhoneError", "a closed table");
  own.close();
  for (const options of [{ table: "[]" }, { module: "x" }, { table: 5 }, { rules: "mine" }, { table: [91, 93] }])
    must((await load(options).then(() => undefined, (error) => error.name)), "TypeError", JSON.stringify(options));
  must((await load({ module: new Uint8Array([1, 2, 3]) }).then(() => undefined, (error) => error.name)), "CompileError", "no module");
  must((await load({ table: new Uint8Array([91]) }).then(() => undefined, (error) => error.name)), "PhoneError", "no table");
  is();
}

// A column beside the calls for one text, in turn: the middle of each.
{
  const some = Array.from({ length: 500 }, (_, i) => `+64 3 331 ${6000 + i}`), columns = [], single = [];
  for (let turn = 0; turn < 21; turn++) {
    let began = performance.now();
    phones.columns(some, { regions: "NZ" });
    columns.push(performance.now() - began);
    began = performance.now();
    for (const text of some) {
      const it = parsePhoneNumber(text, "NZ");
      it.getType(), it.isValid();
    }
    single.push(performance.now() - began);
  }
  const [a, b] = [columns, single].map((it) => it.sort((x, y) => x - y)[10] * 1000 / some.length);
  console.log(`a row: ${a.toFixed(1)} us in a column, ${b.toFixed(1)} by single calls`);
}

// Lines, by both rules.
for (let i = 0; i + 1 < pairs.length; i += 2) {
  const by = await load({ rules: i ? "crate" : "library" });
  const [lines, answers] = pairs.slice(i, i + 2).map((name) => readFileSync(name, "utf8").split("\n").slice(0, -1));
  start = performance.now();
  let differ = 0;
  lines.forEach((line, at) => {
    const cut = line.indexOf("\t"), region = line.slice(0, cut);
    const told = by.report(line.slice(cut + 1), region === "-" ? "" : region);
    if (told !== answers[at] && differ++ < 5) console.error(`js: line ${at + 1}: ${told}, and not ${answers[at]}`);
  });
  must(differ, 0, "lines that differ");
  console.log(`lines: ${lines.length}, ${((performance.now() - start) / lines.length * 1000).toFixed(1)} us each`);
}
console.log("js: ok");
