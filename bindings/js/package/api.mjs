// The names that users of libphonenumber-js know, over an engine.
import { MODES, PhoneError, SOURCES, STATUS } from "./engine.mjs";

/** Why a text is no number: the words of `message` that parsePhoneNumberWithError throws. */
export class ParseError extends Error {
  constructor(message, status) {
    super(message);
    this.name = "ParseError";
    /** The number of the refusal, as in phone.h. */
    this.status = status;
  }
}

const REASONS = { [STATUS.NO_NUMBER]: "NOT_A_NUMBER", [STATUS.INVALID_CODE]: "INVALID_COUNTRY", [STATUS.TOO_SHORT_AFTER_IDD]: "TOO_SHORT",
  [STATUS.TOO_SHORT]: "TOO_SHORT", [STATUS.TOO_LONG]: "TOO_LONG", [STATUS.MALFORMED]: "NOT_A_NUMBER", [STATUS.NO_REGION]: "INVALID_COUNTRY" };
// The kinds in the order of their numbers in phone.h; those that other libraries have no name for are left out.
const KINDS = ["FIXED_LINE", "MOBILE", "FIXED_LINE_OR_MOBILE", "TOLL_FREE", "PREMIUM_RATE", "SHARED_COST", "PERSONAL_NUMBER", "VOIP", "PAGER",
  "UAN", undefined, "VOICEMAIL"];
const LENGTHS = [undefined, undefined, "TOO_SHORT", "TOO_LONG", "INVALID_LENGTH", "INVALID_COUNTRY"];
const MATCHES = ["exact", "number", "national", "end", "different"];
const FORMATS = { "E.164": MODES.E164, E164: MODES.E164, INTERNATIONAL: MODES.INTERNATIONAL, International: MODES.INTERNATIONAL,
  NATIONAL: MODES.NATIONAL, National: MODES.NATIONAL, RFC3966: MODES.RFC3966 };

// The columns of phone.h, by their numbers there.
const NUMBER_COLUMN = { code: 4, value: 5, zeros: 6, kind: 7, region: 8, valid: 9, refusal: 11, isNumber: 12 };
// So many rows are read by one call.
const PIECE = 4096;

/** What columns tell of some rows. */
class Piece {
  constructor({ bytes, view, places }, numbers, count) {
    this.bytes = bytes;
    this.view = view;
    this.count = count;
    this.places = new Map(numbers.map((number, i) => [number, places[i]]));
    this.flags = this.places.get(NUMBER_COLUMN.isNumber)[0][0];
  }
  isNumber(row) { return (this.bytes[this.flags + (row >> 3)] >> (row & 7)) & 1; }
  at(number) { return this.places.get(number)[0][0]; }
  /** Puts what each row that is a number has into an array. */
  put(out, from, value) {
    for (let row = 0; row < this.count; row++) if (this.isNumber(row)) out[from + row] = value(row);
  }
  /** The texts of a column, row by row. */
  texts(number) {
    const [[offsets], [start, end]] = this.places.get(number), all = this.bytes.subarray(start, end);
    const text = LATIN.decode(all), isAscii = !/[^\0-\x7f]/.test(text);
    const place = (row) => this.view.getUint32(offsets + 8 * row, true);
    return (row) => (isAscii ? text.slice(place(row), place(row + 1)) : UTF8.decode(all.subarray(place(row), place(row + 1))));
  }
}
const LATIN = new TextDecoder("latin1"), UTF8 = new TextDecoder();

const textColumn = (number, of = (text) => text) => ({ of: [number], rows(piece, out, from) {
  const text = piece.texts(number);
  piece.put(out, from, (row) => of(text(row)));
} });
const byteColumn = (number, of) => ({ of: [number], rows(piece, out, from) {
  const at = piece.at(number);
  piece.put(out, from, (row) => of(piece.bytes[at + row]));
} });
// The columns of the package: which of phone.h each is of, and how it puts its rows into an array.
const COLUMNS = {
  e164: textColumn(MODES.E164), international: textColumn(MODES.INTERNATIONAL), national: textColumn(MODES.NATIONAL),
  rfc3966: textColumn(MODES.RFC3966), extension: textColumn(MODES.RFC3966, (text) => text.split(";ext=")[1]),
  type: byteColumn(NUMBER_COLUMN.kind, (kind) => KINDS[kind]), valid: byteColumn(NUMBER_COLUMN.valid, (it) => it === 1),
  country: { of: [NUMBER_COLUMN.region], rows(piece, out, from) {
    const at = piece.at(NUMBER_COLUMN.region), ids = new Map();
    piece.put(out, from, (row) => {
      const id = (piece.bytes[at + 2 * row] << 8) | piece.bytes[at + 2 * row + 1];
      if (!ids.has(id)) ids.set(id, id ? String.fromCharCode(id >> 8, id & 0xff) : undefined);
      return ids.get(id);
    });
  } },
  callingCode: { of: [NUMBER_COLUMN.code], rows(piece, out, from) {
    const at = piece.at(NUMBER_COLUMN.code);
    piece.put(out, from, (row) => String(piece.view.getUint16(at + 2 * row, true)));
  } },
  nationalNumber: { of: [NUMBER_COLUMN.value, NUMBER_COLUMN.zeros], rows(piece, out, from) {
    const at = piece.at(NUMBER_COLUMN.value), zeros = piece.at(NUMBER_COLUMN.zeros);
    piece.put(out, from, (row) => "0".repeat(piece.bytes[zeros + row]) + piece.view.getBigUint64(at + 8 * row, true));
  } },
  refusal: { of: [NUMBER_COLUMN.refusal], rows(piece, out, from) {
    const at = piece.at(NUMBER_COLUMN.refusal);
    for (let row = 0; row < piece.count; row++) {
      const status = piece.bytes[at + row];
      if (status) out[from + row] = REASONS[status] ?? "NOT_A_NUMBER";
    }
  } },
};

/** The region that a call's second argument names: an id, or an object with `defaultCountry`; or a calling code. */
function regionOf(options) {
  const region = typeof options === "object" && options !== null ? options.defaultCountry : options;
  if (region != null && typeof region !== "string") throw new TypeError("a region is a string");
  return region ?? "";
}

/** The items of an array, or what is like one, as they are now: each a string or nothing. */
function itemsOf(values, what) {
  if (values == null || typeof values === "string") throw new TypeError("columns are made of arrays");
  const items = Array.from(values);
  for (const it of items) if (it != null && typeof it !== "string") throw new TypeError(what);
  return items;
}

/** All names over an engine. */
export function bind(engine) {
  const textOf = (value) => {
    if (typeof value !== "string") throw new TypeError("a phone number is read of a string");
    return value;
  };
  const known = new Set(engine.regions());
  const codes = new Map();

  /** A phone number. */
  class PhoneNumber {
    #number;
    constructor(number) {
      this.#number = number;
      /** Its calling code, as "64". */
      this.countryCallingCode = String(number.code);
      /** Its national number, with its leading zeros. */
      this.nationalNumber = "0".repeat(number.zeros) + number.value;
      /** Its E.164 text. */
      this.number = engine.key(number);
      /** The id of its region, where it has one. */
      this.country = engine.region(number) || undefined;
      if (number.extension) this.ext = number.extension;
      if (number.carrier) this.carrierCode = number.carrier;
      /** How the calling code was found: "plus", "idd", "number" or "default". */
      this.source = SOURCES[number.source];
    }
    format(format) {
      if (format === "IDD") throw new PhoneError(0, "formatFrom(region) tells how a number is dialled from a region");
      if (!Object.hasOwn(FORMATS, format)) throw new TypeError(`no format: ${String(format)}`);
      try {
        return engine.format(this.#number, FORMATS[format]);
      } catch (error) {
        if (error.status !== STATUS.UNKNOWN_CODE) throw error;
        return this.number;
      }
    }
    formatNational() { return this.format("NATIONAL"); }
    formatInternational() { return this.format("INTERNATIONAL"); }
    getURI() { return this.format("RFC3966"); }
    /** How it is dialled from a region. */
    formatFrom(region) { return engine.dialledFrom(this.#number, region); }
    getType() { return KINDS[engine.kind(this.#number)]; }
    isValid() { return engine.isValid(this.#number); }
    isPossible() { return engine.possibility(this.#number) <= 1; }
    /** Why the count of its digits isn't possible; undefined where it is. */
    validateLength() { return LENGTHS[engine.possibility(this.#number)]; }
    isNonGeographic() { return this.country === undefined && this.isValid(); }
    isEqual(other) { return this.number === other.number && this.ext === other.ext; }
    setExt(ext) {
      if (ext != null && typeof ext !== "string") throw new TypeError("an extension is a string");
      this.#number = { ...this.#number, extension: ext || undefined };
      this.ext = ext || undefined;
    }
    toString() { return this.number; }
    toJSON() { return { ...this }; }
  }

  const read = (text, region) => engine.parse(textOf(text), region);

  /** The number that a text is; throws ParseError where it is none. */
  function parsePhoneNumberWithError(text, options) {
    const number = read(text, regionOf(options));
    if (typeof number !== "number") return new PhoneNumber(number);
    if (number === STATUS.MEMORY) throw engine.error(number);
    throw new ParseError(REASONS[number] ?? "NOT_A_NUMBER", number);
  }
  /** The number that a text is; undefined where it is none. */
  function parsePhoneNumber(text, options) {
    try {
      return parsePhoneNumberWithError(text, options);
    } catch (error) {
      if (error instanceof ParseError) return undefined;
      throw error;
    }
  }
  const isValidPhoneNumber = (text, options) => parsePhoneNumber(text, options)?.isValid() ?? false;
  const isPossiblePhoneNumber = (text, options) => parsePhoneNumber(text, options)?.isPossible() ?? false;
  /** Why a text isn't possible as a number: undefined where it is. */
  function validatePhoneNumberLength(text, options) {
    const number = read(text, regionOf(options));
    if (typeof number !== "number") return LENGTHS[engine.possibility(number)];
    if (number === STATUS.MEMORY) throw engine.error(number);
    return REASONS[number] ?? "NOT_A_NUMBER";
  }

  /** The numbers in a text: each with its place, in characters of JavaScript. */
  function findPhoneNumbersInText(text, options) {
    const region = regionOf(options), leniency = options?.leniency === "POSSIBLE" ? 0 : 1;
    return engine.find(textOf(text), region, leniency).map(([startsAt, endsAt]) => ({ startsAt, endsAt,
      number: new PhoneNumber(engine.parse(text.slice(startsAt, endsAt), region)) }));
  }
  function* searchPhoneNumbersInText(text, options) { yield* findPhoneNumbersInText(text, options); }

  /** A number as it is typed. */
  class AsYouType {
    #region;
    #typed = "";
    constructor(options) { this.#region = regionOf(options); }
    /** Types characters, and gives what is shown. */
    input(characters) {
      this.#typed += textOf(characters);
      return this.shown;
    }
    reset() { this.#typed = ""; }
    get shown() { return engine.typed(this.#typed, this.#region); }
    /** After how many characters of what is shown the n-th key stands. */
    caret(n) {
      if (!Number.isSafeInteger(n) || n < 0) throw new RangeError("keys are counted from 0");
      return engine.caret(this.#typed, this.#region, n);
    }
    getChars() { return this.#typed.replace(/[^\d+\uff0b]/gu, ""); }
    getNumber() { return parsePhoneNumber(this.#typed, this.#region); }
    getNumberValue() { return this.getNumber()?.number; }
    getCountry() { return this.getNumber()?.country; }
    getCallingCode() { return this.getNumber()?.countryCallingCode; }
    isInternational() { return /^\s*[+\uff0b]/u.test(this.#typed); }
    isPossible() { return this.getNumber()?.isPossible() ?? false; }
    isValid() { return this.getNumber()?.isValid() ?? false; }
  }

  const getCountries = () => [...known];
  const isSupportedCountry = (region) => known.has(region);
  /** The calling code of a region; throws where there is no such region. */
  function getCountryCallingCode(region) {
    if (!known.has(region)) throw new Error(`Unknown country: ${region}`);
    for (let kind = 0; !codes.has(region) && kind < 12; kind++) {
      const example = engine.example(region, kind);
      if (example) codes.set(region, String(example.code));
    }
    return codes.get(region);
  }
  /** An example number of a region, of a kind as getType tells it: of mobile numbers where there are any. */
  function getExampleNumber(region, type) {
    for (const kind of type ? [KINDS.indexOf(type)] : [1, 0, 2]) {
      const example = kind < 0 ? undefined : engine.example(region, kind);
      if (example) return new PhoneNumber(example);
    }
    return undefined;
  }
  /** How like the numbers of two texts are: "exact", "number", "national", "end" or "different". */
  const compareTexts = (one, two) => MATCHES[engine.compare(textOf(one), textOf(two))];
  /** The report line of a line: its fields parted by tabs. */
  const report = (line, region = "") => engine.report(textOf(line), region);
  /** What is told of each of many texts, as arrays by the names of columns. `regions` is one for all, or an array. */
  function columns(values, { regions = "", columns: given = ["e164", "type", "country", "valid", "refusal"], progress } = {}) {
    const names = Array.from(given);
    for (const name of names) if (!Object.hasOwn(COLUMNS, name)) throw new TypeError(`no column: ${String(name)}`);
    const texts = itemsOf(values, "a phone number is read of a string");
    const hints = typeof regions === "string" ? regions : itemsOf(regions ?? [], "a region is a string");
    const told = Object.fromEntries(names.map((name) => [name, new Array(texts.length)]));
    const numbers = [...new Set([NUMBER_COLUMN.isNumber, ...names.flatMap((name) => COLUMNS[name].of)])];
    for (let from = 0; from < texts.length; from += PIECE) {
      const count = Math.min(PIECE, texts.length - from);
      const piece = new Piece(engine.columns(texts, hints, from, count, numbers), numbers, count);
      for (const name of names) COLUMNS[name].rows(piece, told[name], from);
      if (progress) progress(from + count, texts.length);
    }
    return told;
  }
  const tableVersion = () => engine.tableVersion();

  return { PhoneNumber, ParseError, parsePhoneNumber, parsePhoneNumberFromString: parsePhoneNumber, parsePhoneNumberWithError,
    isValidPhoneNumber, isPossiblePhoneNumber, validatePhoneNumberLength, findPhoneNumbersInText, searchPhoneNumbersInText, AsYouType,
    getCountries, isSupportedCountry, getCountryCallingCode, getExampleNumber, compareTexts, report, columns, tableVersion };
}
