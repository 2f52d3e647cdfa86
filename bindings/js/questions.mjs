// The rows of crates/replay/data on libphonenumber's further questions, on matches and on places, asked of the module's calls themselves, of
// which the package names only some: node questions.mjs PACKAGE DATA TABLES. TABLES is the folder of short.json, sms.json and alternates.json. A row that
// differs is printed; the last line is `questions: ok` with the count of rows.
import { readFileSync } from "node:fs";

const [folder, data, tables] = process.argv.slice(2);
async function unpacked(name) {
  const stream = new Blob([readFileSync(`${folder}/${name}`)]).stream().pipeThrough(new DecompressionStream("gzip"));
  return new Uint8Array(await new Response(stream).arrayBuffer());
}
const { exports: calls } = await WebAssembly.instantiate(await WebAssembly.compile(await unpacked("phone.wasm.gz")), {});
const encoder = new TextEncoder(), decoder = new TextDecoder("utf-8", { fatal: true });

// What a row lays into memory stands in one block, which the next row takes again.
const ROOM = 1 << 22, LONG = 1 << 14, first = calls.phone_memory(ROOM) >>> 0;
let next = first;
const bytes = () => new Uint8Array(calls.memory.buffer), view = () => new DataView(calls.memory.buffer);
/** A place for so many bytes, all of them 0. */
function room(size) {
  const at = next;
  next = (at + size + 15) & ~15;
  if (next > first + ROOM) throw new RangeError("a row is too long");
  bytes().fill(0, at, next);
  return at;
}
/** A text's place and length. */
function text(it) {
  const own = typeof it === "string" ? encoder.encode(it) : it, at = room(own.length + 1);
  bytes().set(own, at);
  return [at, own.length];
}
class Refusal extends Error {
  constructor(status) {
    super(`status ${status}`);
    this.status = status;
  }
}
const must = (status) => { if (status) throw new Refusal(status); };
const byteAt = (at, place) => view().getUint8(at + place);
const lengthAt = (at) => view().getUint32(at, true);

/** What a call writes to the front of a buffer: its place, and how many bytes, or values of another width. */
function wrote(name, width, ...words) {
  const out = room(LONG * width), length = room(8);
  must(calls[name](...words, out, LONG, length));
  return [out, lengthAt(length)];
}
function written(name, ...words) {
  const [at, length] = wrote(name, 1, ...words);
  return decoder.decode(bytes().subarray(at, at + length));
}
/** What a call tells in a cell. */
function told(name, size, ...words) {
  const cell = room(size);
  must(calls[name](...words, cell));
  return cell;
}
const flag = (name, ...words) => (byteAt(told(name, 1, ...words), 0) ? "yes" : "no");
const count = (name, ...words) => view().getUint32(told(name, 4, ...words), true);
/** What a call answers, and another answer where it refuses by one of these statuses. */
function or(other, statuses, call) {
  try {
    return call();
  } catch (error) {
    if (!statuses.includes(error.status)) throw error;
    return other;
  }
}

/** A handle that stays open, on a database. */
function opened(table) {
  const handle = calls.phone_memory(16) >>> 0, at = calls.phone_memory(table.length) >>> 0;
  bytes().fill(0, handle, handle + 16);
  bytes().set(table, at);
  must(calls.phone_open(at, table.length, 0, handle));
  calls.phone_memory_back(at);
  return handle;
}
const world = opened(await unpacked("world.compact.gz"));
const [shorts, services, alternates] = ["short.json", "sms.json", "alternates.json"].map((it) => opened(readFileSync(`${tables}/${it}`)));
const regions = new Set(written("phone_regions", world).match(/../g));
const about = (id) => told("phone_about_region", 8, world, ...text(id));
const codeOf = (id) => view().getUint16(about(id), true);

// A number: its place, and that and the length of its texts; the text that it was read from.
function numberBy(name, raw, ...words) {
  const at = room(64);
  return { at, texts: wrote(name, 1, ...words, at), raw };
}
const read = (hint, raw) => numberBy("phone_parse", raw, world, ...text(hint === "-" ? "" : hint), ...text(raw));
function ofParts(parts) {
  const [, code, national, extension] = /^(\d+) (\d+)(?: (.*))?$/su.exec(parts), at = room(64), texts = text(extension ?? "");
  const value = BigInt(national), own = view();
  own.setBigUint64(at, value, true);
  own.setUint32(at + 16, texts[1], true);
  own.setUint8(at + 24, extension === undefined ? 0 : 1);
  own.setUint16(at + 56, Number(code), true);
  own.setUint8(at + 59, national.length - String(value).length);
  return { at, texts, raw: "" };
}
function part({ at, texts }, place) {
  if (!byteAt(at, place + 16)) return undefined;
  const start = texts[0] + lengthAt(at + place);
  return decoder.decode(bytes().subarray(start, start + lengthAt(at + place + 8)));
}
const code = ({ at }) => view().getUint16(at + 56, true);
const national = ({ at }) => "0".repeat(byteAt(at, 59)) + view().getBigUint64(at, true);
const parts = (n) => [code(n), national(n), ...[part(n, 8)].filter(Boolean)].join(" ");
const example = (name, ...words) => or("-", [19, 32], () => parts(numberBy(name, "", ...words)));

const KINDS = ["FixedLine", "Mobile", "FixedLineOrMobile", "TollFree", "PremiumRate", "SharedCost", "PersonalNumber", "Voip", "Pager", "Uan",
  "Emergency", "Voicemail", "ShortCode", "StandardRate", "Carrier", "NoInternational", "Unknown"];
const MODES = ["e164", "international", "national", "rfc3966"], SOURCES = ["Plus", "Idd", "Number", "Default"];
const VERDICTS = ["IsPossible", "IsPossibleLocalOnly", "TooShort", "TooLong", "InvalidLength", "InvalidCountryCode"];
const LENIENCIES = ["POSSIBLE", "VALID", "STRICT_GROUPING", "EXACT_GROUPING"];
const LIKENESS = ["NotANumber", "NoMatch", "ShortNsnMatch", "NsnMatch", "ExactMatch"], COSTS = ["TollFree", "StandardRate", "PremiumRate", "UnknownCost", "Any"];
const known = (region) => text(regions.has(region) ? region : "");
const carrierOf = (it) => text(it === "-" ? "" : it);
const whole = (n) => [n.at, ...n.texts];
const numberFacts = (n) => told("phone_about_number", 24, world, n.at);
const anywhere = (n) => told("phone_short_anywhere", 8, world, shorts, n.at);
const kindsOf = (name, ...words) => {
  const [at, length] = wrote(name, 4, ...words);
  return Array.from({ length }, (_, i) => KINDS[view().getUint32(at + 4 * i, true)]).join(" ") || "-";
};
/** A database of own layouts, as its text. */
function layouts(rows) {
  const formats = [];
  for (let i = 0; i + 3 < rows.length; i += 4) {
    const [pattern, format, leading, rule] = rows.slice(i, i + 4);
    formats.push({ pattern, format, ...(leading === "-" ? {} : { leading_digits: [leading] }), ...(rule === "-" ? {} : { national_prefix_formatting_rule: rule }) });
  }
  return JSON.stringify([{ id: "001", country_code: 1, general: { national_number: "1" }, formats }]);
}
function byLayouts(n, mode, ...rows) {
  const own = room(8);
  must(calls.phone_open(...text(layouts(rows)), 0, own));
  try {
    return written("phone_format_by", world, own, MODES.indexOf(mode.toLowerCase()), ...whole(n));
  } finally {
    calls.phone_close(own);
  }
}

// Questions of a number, which is the first two of a row's arguments; and the rest.
const OF_NUMBERS = {
  keep: (n) => `${code(n)} ${national(n)} ${part(n, 8) || "-"} ${SOURCES[byteAt(n.at, 58)]} ${part(n, 32) || "-"}`,
  print: (n, mode) => written("phone_format_read", world, MODES.indexOf(mode.toLowerCase()), ...text(n.raw), ...whole(n)),
  mobile: (n, region, symbols) => written("phone_mobile_text", world, ...text(region), symbols === "yes" ? 1 : 0, ...text(n.raw), ...whole(n)),
  original: (n, region) => written("phone_original_text", world, ...known(region), ...text(n.raw), ...whole(n)),
  letters: (n, region) => written("phone_text_with_letters", world, ...known(region), ...text(n.raw), ...whole(n)),
  "own-letters": (n, region) => (n.raw ? written("phone_dialled_with_letters", world, ...known(region), ...text(n.raw), ...whole(n))
    : written("phone_text_from", world, ...known(region), ...text(""), ...whole(n))),
  "own-mobile": (n, region, symbols) => written("phone_own_mobile_text", world, ...text(region), symbols === "yes" ? 1 : 0, ...whole(n)),
  dialled: (n, region) => written("phone_text_from", world, ...known(region), ...text(n.raw), ...whole(n)),
  "by-layouts": byLayouts,
  // E.164 text isn't laid out.
  "own-by-layouts": (n, mode, ...rows) => (mode === "E164" ? written("phone_key", n.at) : byLayouts(n, mode, ...rows)),
  carrier: (n, it) => written("phone_national_with", world, ...whole(n), ...carrierOf(it), 0),
  preferred: (n, it) => written("phone_national_with", world, ...whole(n), ...carrierOf(it), 1),
  "area-length": (n) => String(lengthAt(numberFacts(n))),
  "destination-length": (n) => String(lengthAt(numberFacts(n) + 8)),
  geographical: (n) => (byteAt(numberFacts(n), 16) ? "yes" : "no"),
  "own-from-abroad": (n) => flag("phone_reaches_from_abroad", world, n.at),
  "from-abroad": (n) => (byteAt(numberFacts(n), 17) ? "yes" : "no"),
  "valid-for": (n, region) => flag("phone_is_valid_for", world, ...text(region), n.at),
  possible: (n) => VERDICTS[count("phone_possibility", world, n.at)],
  "possible-kind": (n, kind) => VERDICTS[count("phone_possibility_as", world, KINDS.indexOf(kind), n.at)],
  "own-possible-kind": (n, kind) => VERDICTS[count("phone_own_possibility", world, KINDS.indexOf(kind), n.at)],
  truncate: (n) => `${flag("phone_truncate", world, n.at)} ${parts(n)}`,
  match: (n, hint, other) => LIKENESS[count("phone_match_numbers", ...whole(n), ...whole(number(hint, other)))],
  "match-text": (n, other) => LIKENESS[count("phone_match_text", world, ...whole(n), ...text(other))],
  "own-match": (n, hint, other) => LIKENESS[count("phone_own_match_numbers", ...whole(n), ...whole(number(hint, other)))],
  "own-match-text": (n, other) => LIKENESS[count("phone_own_match_text", world, ...whole(n), ...text(other))],
  "short-possible": (n) => (byteAt(anywhere(n), 4) ? "yes" : "no"),
  "short-valid": (n) => (byteAt(anywhere(n), 5) ? "yes" : "no"),
  "short-carrier": (n) => (byteAt(anywhere(n), 6) ? "yes" : "no"),
  "short-cost": (n) => COSTS[view().getUint32(anywhere(n), true)],
  "short-own-cost": (n) => COSTS[count("phone_known_cost", world, shorts, n.at)],
  "short-sms": (n, region) => or("no", [19], () => flag("phone_is_sms_service", world, services, ...text(region), n.at)),
};
const OF_THE_REST = {
  "match-texts": (one, other) => LIKENESS[count("phone_match_texts", world, ...text(one), ...text(other))],
  "own-match-texts": (one, other) => LIKENESS[count("phone_own_match_texts", world, ...text(one), ...text(other))],
  extract: (it) => written("phone_extract", ...text(it)),
  "example-any": (kind) => example("phone_example_of_kind", world, KINDS.indexOf(kind)),
  "geographical-kind": (kind, code) => flag("phone_is_geographical", KINDS.indexOf(kind), Number(code)),
  "mobile-token": (code) => written("phone_mobile_token", Number(code)),
  "region-of": (code) => or("ZZ", [20], () => written("phone_main_region", world, Number(code))),
  "regions-of": (code) => {
    const main = or("-", [20], () => written("phone_main_region", world, Number(code)));
    return [main, ...[...regions].filter((it) => it !== main && codeOf(it) === Number(code))].join(" ");
  },
  portable: (region) => or("no", [19, 34], () => (byteAt(about(region), 3) ? "yes" : "no")),
  nanpa: (region) => or("no", [19, 34], () => (byteAt(about(region), 2) ? "yes" : "no")),
  "code-of": (region) => or("0", [19, 34], () => String(codeOf(region))),
  ndd: (region, marks) => or("", [19], () => written("phone_national_prefix", world, ...text(region), marks === "no" ? 1 : 0)) || "-",
  "kinds-of-region": (region) => or("-", [19], () => kindsOf("phone_region_kinds", world, ...text(region))),
  "kinds-of-code": (code) => kindsOf("phone_code_kinds", world, Number(code)),
  example: (region) => example("phone_example", world, ...text(region), 0),
  "example-kind": (region, kind) => example("phone_example", world, ...text(region), KINDS.indexOf(kind)),
  "example-code": (code) => example("phone_example_of_code", world, Number(code)),
  "example-invalid": (region) => example("phone_invalid_example", world, ...text(region)),
  "has-letters": (it) => flag("phone_has_letters", ...text(it)),
  keys: (it) => written("phone_normalize", 0, ...text(it)),
  digits: (it) => written("phone_normalize", 1, ...text(it)),
  diallable: (it) => written("phone_normalize", 2, ...text(it)),
  "short-example": (region) => or("", [19, 32], () => written("phone_short_example", shorts, ...text(region), 4)),
  "short-example-cost": (region, cost) => or("", [19, 32], () => written("phone_short_example", shorts, ...text(region), COSTS.indexOf(cost))),
};
const REFUSALS = { 1: "NoNumber", 2: "InvalidCountryCode", 3: "TooShortAfterIdd", 4: "TooShortNsn", 5: "TooLong", 6: "NoNumber", 20: "UnknownCode" };
const number = (hint, it) => (hint === "=" ? ofParts(it) : read(hint, it));

/** The answer to a row of a question; undefined where it is asked in Rattle alone. */
function question(name, ...words) {
  const ofNumber = OF_NUMBERS[name], ask = ofNumber ?? OF_THE_REST[name];
  if (!ask) return undefined;
  try {
    return (ofNumber ? ask(number(...words), ...words.slice(2)) : ask(...words)) || "empty";
  } catch (error) {
    if (!(error instanceof Refusal) || !REFUSALS[error.status]) throw error;
    return `error ${REFUSALS[error.status]}`;
  }
}

/** Matches in a text, by alternate formats: places in characters, each with its number. */
function matches(hint, leniency, it) {
  const level = LENIENCIES.indexOf(leniency), region = hint === "-" ? "" : hint, own = encoder.encode(it);
  const [at, length] = wrote("phone_matches_by", 16, world, alternates, ...text(region), level, 0xffffffff, ...text(own)), found = [];
  for (let i = 0; i < length; i++) {
    const [start, end] = [0, 8].map((place) => lengthAt(at + 16 * i + place));
    const characters = (to) => [...decoder.decode(own.subarray(0, to))].length;
    const key = written("phone_key", read(region, decoder.decode(own.subarray(start, end))).at);
    found.push(`${characters(start)}..${characters(end)}:${key}`);
  }
  return found.join("\t");
}

/** Where a number is, by tables of its own. */
function place(it, locale, user, ...fields) {
  const handles = fields.slice(0, 5).map((field) => {
    const handle = room(8);
    if (field !== "-") must(calls.phone_prefixes_open(...text(field.slice(1)), handle, room(8)));
    return handle;
  });
  const [areas, englishAreas, carriers, englishCarriers, zones] = handles, atlas = room(8), n = read("-", it);
  must(calls.phone_atlas_open(...text(locale), areas, englishAreas, carriers, englishCarriers, ...text(fields[5].replaceAll("|", "")), atlas, room(8)));
  const own = text(user === "-" ? "" : user);
  const three = (is) => [written("phone_description", world, atlas, ...whole(n), ...own, is), written("phone_carrier", world, atlas, ...whole(n), is),
    written("phone_time_zones", world, zones, ...whole(n), is)];
  const answer = [...three(0), ...three(1), written("phone_safe_carrier", world, atlas, ...whole(n))].join("\t");
  calls.phone_atlas_close(atlas);
  for (const handle of handles) calls.phone_prefixes_close(handle);
  return answer;
}

const plain = (field) => field.replace(/\\(?:u([0-9A-Fa-f]{4})|U([0-9A-Fa-f]{8})|(.))/gsu, (_, short, long, sign) =>
  sign ? { t: "\t", n: "\n" }[sign] ?? sign : String.fromCodePoint(parseInt(short ?? long, 16)));
const ASKED = {
  question: ["questions", ([, ...words]) => [question(...words.slice(0, -1)), words.at(-1)]],
  matches: ["matches", ([, hint, leniency, it, answer]) => [matches(hint, leniency, it), answer]],
  place: ["places", ([, ...words]) => [place(...words.slice(0, 9)), words[9].split("\t").slice(2).join("\t")]],
};
/** Asks all rows, and prints those that differ; how many there are, and how many differ. */
function asked(isTold) {
  let all = 0, differ = 0;
  for (const [call, [file, ask]] of Object.entries(ASKED)) {
    const before = all;
    for (const line of readFileSync(`${data}/${file}.tsv`, "utf8").split("\n")) {
      const [name, ...fields] = line.split("\t");
      if (name !== call) continue;
      next = first;
      if (call === "question") fields.pop();
      const [told, answer] = ask(fields.map(plain));
      if (told === undefined) continue;
      all++;
      if (told !== answer && differ++ < 20) console.error(`${line}\n  here: ${JSON.stringify(told)}`);
    }
    if (isTold) console.log(`${call}: ${all - before}`);
  }
  return [all, differ];
}
asked(false);
// What is held after all rows is held after all rows once more.
const held = calls.heap_taken(), [all, differ] = asked(true), isHeld = calls.heap_taken() === held;
if (!isHeld) console.error(`questions: ${calls.heap_taken()} bytes are held, and not ${held}`);
console.log(differ || !isHeld ? `questions: ${differ} of ${all} differ` : `questions: ok, ${all} rows`);
process.exit(differ || !isHeld ? 1 : 0);
