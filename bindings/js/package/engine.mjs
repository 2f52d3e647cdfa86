// The calls of the library in WebAssembly, with texts as strings: the only file that knows where things stand in its memory.

/** What a call that needs no number answers when it is refused. */
export class PhoneError extends Error {
  constructor(status, words) {
    super(words);
    this.name = "PhoneError";
    /** The number of the refusal, as in phone.h. */
    this.status = status;
  }
}

export const STATUS = { OK: 0, NO_NUMBER: 1, INVALID_CODE: 2, TOO_SHORT_AFTER_IDD: 3, TOO_SHORT: 4, TOO_LONG: 5, MALFORMED: 6,
  MEMORY: 7, TOO_SMALL: 17, NOT_UTF8: 18, NO_REGION: 19, UNKNOWN_CODE: 20, NO_EXAMPLE: 32, NO_TERRITORY: 34 };
export const MODES = { E164: 0, INTERNATIONAL: 1, NATIONAL: 2, RFC3966: 3 };
export const SOURCES = ["plus", "idd", "number", "default"];

// A number: value, extension and carrier (start, length, whether it is there), code, source, zeros.
const NUMBER = { size: 64, extension: 8, carrier: 32, code: 56, source: 58, zeros: 59 };
const encoder = new TextEncoder();
/** Says that a text is no string. Only strings are laid out: what else is made of a value may change from one look at it to the next. */
const notText = () => new TypeError("a text or a region is a string");
const decoder = new TextDecoder("utf-8", { fatal: true });
// The characters of texts that have at most so many are laid out one by one, which takes less time than a call of the encoder.
const SHORT = 32;

/** An instance of the module, with the table that is open in it. One call at a time: a worker has its own. */
export class Engine {
  #calls;
  #all = new Uint8Array(0);
  #words;
  #handle;
  #wrote;
  #told;
  #number;
  #regionLen = 0;
  #textLen = 0;
  #in = { at: 0, room: 0 };
  #out = { at: 0, room: 0 };

  /** The engine of an instance, over a table's bytes, JSON or compact; by libphonenumber's rules, or the crate's where `rules` is 1. */
  constructor(instance, table, rules = 0) {
    if (!(table instanceof Uint8Array)) throw new TypeError("a table is bytes, in a Uint8Array");
    this.#calls = instance.exports;
    // The cells are zero at first: a handle, two lengths, a number, plain results.
    this.#handle = this.#take(256);
    this.#bytes().fill(0, this.#handle, this.#handle + 256);
    this.#wrote = this.#handle + 16;
    this.#told = this.#handle + 24;
    this.#number = this.#handle + 64;
    const at = this.#take(table.length);
    this.#bytes().set(table, at);
    const status = this.#calls.phone_open(at, table.length, rules, this.#handle);
    this.#calls.phone_memory_back(at);
    this.#grow(this.#in, 1024);
    this.#grow(this.#out, 1024);
    if (status !== STATUS.OK) throw this.error(status);
  }

  #take(size) {
    const at = size < 2 ** 32 ? this.#calls.phone_memory(size) >>> 0 : 0;
    if (at === 0) throw new PhoneError(STATUS.MEMORY, "out of memory");
    return at;
  }
  /** The memory's bytes: they have no length any more where it has grown. */
  #bytes() {
    if (this.#all.length === 0) {
      this.#all = new Uint8Array(this.#calls.memory.buffer);
      this.#words = new DataView(this.#calls.memory.buffer);
    }
    return this.#all;
  }
  #view() { return this.#bytes(), this.#words; }

  /** Makes a buffer longer. All of its bytes are set. */
  #grow(buffer, room) {
    if (buffer.room >= room) return;
    const at = this.#take(room);
    if (buffer.room) this.#calls.phone_memory_back(buffer.at);
    this.#bytes().fill(0, at, at + room);
    buffer.at = at;
    buffer.room = room;
  }

  /** Lays a text out at a place, where there is room; the place behind it. Characters of ASCII are their bytes. */
  #lay(text, at) {
    const all = this.#all, length = text.length;
    let k = 0;
    if (length <= SHORT) for (let code; k < length && (code = text.charCodeAt(k)) < 0x80; k++) all[at + k] = code;
    return k === length ? at + k : at + encoder.encodeInto(text, all.subarray(at)).written;
  }

  /** Puts texts, one behind the other, where calls read them; where each begins, and its length. */
  #put(...all) {
    let room = 0;
    for (const text of all) {
      if (typeof text !== "string") throw notText();
      room += 3 * text.length + 1;
    }
    this.#grow(this.#in, room);
    this.#bytes();
    const parts = [];
    let at = this.#in.at;
    for (const text of all) {
      const end = this.#lay(text, at);
      parts.push(at, end - at);
      at = end;
    }
    return parts;
  }

  /** Puts a region and a text where calls read them: the region stands in front of the text. */
  #putText(region, text) {
    if (typeof region !== "string" || typeof text !== "string") throw notText();
    this.#grow(this.#in, 3 * (region.length + text.length) + 2);
    this.#bytes();
    const at = this.#in.at, middle = this.#lay(region, at);
    this.#regionLen = middle - at;
    this.#textLen = this.#lay(text, middle) - middle;
    return middle;
  }

  /** A place or a length in memory, which has at most 4 GB. */
  #at(place) { return this.#view().getUint32(place, true); }
  #setAt(place, value) {
    this.#view().setUint32(place, value, true);
    this.#words.setUint32(place + 4, 0, true);
  }
  #length() { return this.#at(this.#wrote); }

  /** Calls until the buffer for the answer is long enough; the status. */
  #written(call, width = 1) {
    for (;;) {
      const status = call(this.#out.at, Math.floor(this.#out.room / width), this.#wrote);
      if (status !== STATUS.TOO_SMALL) return status;
      this.#grow(this.#out, width * this.#length());
    }
  }
  /** The text that stands at a place. */
  #textAt(at, length) { return decoder.decode(this.#bytes().subarray(at, at + length)); }
  #text() { return this.#textAt(this.#out.at, this.#length()); }
  #asked(status) {
    if (status === STATUS.OK) return;
    throw this.error(status);
  }

  /** What a call writes of a text under a region. */
  #ofText(call, region, text) {
    const at = this.#putText(region, text), out = this.#out;
    for (;;) {
      const status = call(this.#handle, this.#in.at, this.#regionLen, at, this.#textLen, out.at, out.room, this.#wrote);
      if (status === STATUS.OK) return this.#text();
      if (status !== STATUS.TOO_SMALL) throw this.error(status);
      this.#grow(out, this.#length());
    }
  }

  /** The error of a status. */
  error(status) {
    if (this.#out.room === 0) return new PhoneError(status, `status ${status}`);
    const told = this.#written((...out) => this.#calls.phone_status_words(status, ...out));
    return new PhoneError(status, told === STATUS.OK ? this.#text() : `status ${status}`);
  }

  /** Reads a text; a number, as plain data, or the status of the refusal. */
  parse(text, region = "") {
    const at = this.#putText(region, text), out = this.#out;
    for (;;) {
      const status = this.#calls.phone_parse(this.#handle, this.#in.at, this.#regionLen, at, this.#textLen, this.#number, out.at, out.room, this.#wrote);
      if (status === STATUS.OK) return this.#read();
      if (status !== STATUS.TOO_SMALL) return status;
      this.#grow(out, this.#length());
    }
  }

  /** The example number of a region and a kind; undefined where the table has none. */
  example(region, kind) {
    const [at, len] = this.#put(region);
    const status = this.#written((...out) => this.#calls.phone_example(this.#handle, at, len, kind, this.#number, ...out));
    if (status === STATUS.NO_EXAMPLE || status === STATUS.NO_REGION) return undefined;
    this.#asked(status);
    return this.#read();
  }

  /** The number that a call wrote. */
  #read() {
    const at = this.#number, view = this.#view();
    const part = (place) =>
      view.getUint8(at + place + 16) ? this.#textAt(this.#out.at + this.#at(at + place), this.#at(at + place + 8)) : undefined;
    return { value: view.getBigUint64(at, true), code: view.getUint16(at + NUMBER.code, true), source: view.getUint8(at + NUMBER.source),
      zeros: view.getUint8(at + NUMBER.zeros), extension: part(NUMBER.extension), carrier: part(NUMBER.carrier) };
  }

  /** Puts a number where calls read it; where its texts stand, behind other texts. */
  #layNumber(number, ...more) {
    const { extension, carrier } = number, parts = this.#put(...more, extension ?? "", carrier ?? "");
    const second = parts.pop(), at = this.#number, view = this.#view();
    parts.pop();
    const first = parts[parts.length - 1];
    parts[parts.length - 1] += second;
    view.setBigUint64(at, number.value, true);
    this.#layPart(at + NUMBER.extension, 0, first, extension !== undefined);
    this.#layPart(at + NUMBER.carrier, first, second, carrier !== undefined);
    view.setUint16(at + NUMBER.code, number.code, true);
    view.setUint8(at + NUMBER.source, number.source);
    view.setUint8(at + NUMBER.zeros, number.zeros);
    return parts;
  }
  #layPart(at, start, length, isThere) {
    this.#setAt(at, start);
    this.#setAt(at + 8, length);
    this.#words.setUint8(at + 16, isThere ? 1 : 0);
  }

  /** The text of a number in a mode. */
  format(number, mode) {
    const [at, len] = this.#layNumber(number);
    this.#asked(this.#written((...out) => this.#calls.phone_format(this.#handle, this.#number, at, len, mode, ...out)));
    return this.#text();
  }
  /** The E.164 text of a number, whatever its code. */
  key(number) {
    this.#layNumber(number);
    this.#asked(this.#written((...out) => this.#calls.phone_key(this.#number, ...out)));
    return this.#text();
  }
  /** How a number is dialled from a region. */
  dialledFrom(number, region) {
    const [regionAt, regionLen, at, len] = this.#layNumber(number, region);
    this.#asked(this.#written((...out) =>
      this.#calls.phone_dialled_from(this.#handle, regionAt, regionLen, this.#number, at, len, ...out)));
    return this.#text();
  }
  /** The id of a number's region; empty where it has none. */
  region(number) {
    this.#layNumber(number);
    this.#asked(this.#written((...out) => this.#calls.phone_region(this.#handle, this.#number, ...out)));
    return this.#text();
  }

  #plain(name, size, ...words) {
    this.#asked(this.#calls[name](this.#handle, ...words, this.#told));
    const view = this.#view(), at = this.#told;
    return size === 1 ? view.getUint8(at) : size === 4 ? view.getUint32(at, true) : this.#at(at);
  }
  /** The kind of a number, by its number in phone.h. */
  kind(number) { return this.#layNumber(number), this.#plain("phone_kind", 4, this.#number); }
  isValid(number) { return this.#layNumber(number), this.#plain("phone_is_valid", 1, this.#number) === 1; }
  /** Whether the count of a number's digits is possible, by its number in phone.h. */
  possibility(number) { return this.#layNumber(number), this.#plain("phone_possibility", 4, this.#number); }
  /** The same of the number that a text is. */
  possibilityOfText(text, region = "") { return this.#plain("phone_text_possibility", 4, ...this.#put(region, text)); }
  /** What is known of a text as a short number of a region, over a table of short numbers; the cost by its number in phone.h. */
  short(text, region) {
    this.#asked(this.#calls.phone_short(this.#handle, ...this.#put(region, text), this.#told));
    const view = this.#view(), at = this.#told, is = (place) => view.getUint8(at + place) === 1;
    return { cost: view.getUint32(at, true), isPossible: is(4), isValid: is(5), isCarrierSpecific: is(6), isEmergency: is(7), reachesEmergency: is(8) };
  }
  /** How like the numbers of two texts are, by its number in phone.h. */
  compare(one, two) { return this.#plain("phone_compare", 4, ...this.#put(one, two)); }

  /** The report line of a line. */
  report(line, region = "") {
    return this.#ofText(this.#calls.phone_report, region, line);
  }
  /** What is shown of a number while it is typed. */
  typed(keys, region = "") {
    return this.#ofText(this.#calls.phone_typing_shown, region, keys);
  }
  /** After how many characters of what is shown the n-th key stands. */
  caret(keys, region, n) { return this.#plain("phone_typing_caret", 8, ...this.#put(region, keys), Math.min(n, 2 ** 32 - 1)); }

  /** Where numbers stand in a text: pairs of places, in characters of JavaScript. */
  find(text, region = "", leniency = 1) {
    const [regionAt, regionLen, at, len] = this.#put(region, text);
    this.#asked(this.#written((...out) => this.#calls.phone_find(this.#handle, regionAt, regionLen, leniency, at, len, ...out), 16));
    const found = [], base = this.#out.at, bytes = this.#bytes().slice(at, at + len);
    let byte = 0, character = 0;
    const place = (end) => {
      for (; byte < end; byte++) if ((bytes[byte] & 0xc0) !== 0x80) character += bytes[byte] >= 0xf0 ? 2 : 1;
      return character;
    };
    for (let i = 0, count = this.#length(); i < count; i++) {
      const start = place(this.#at(base + 16 * i));
      found.push([start, place(this.#at(base + 16 * i + 8))]);
    }
    return found;
  }

  /** Lays a column of texts out from a place on, as Arrow has it: offsets, flags, bytes. One text is a hint for all; null is none. */
  #layColumn(struct, at, rows, from, count) {
    const all = this.#bytes(), isOne = typeof rows === "string";
    const offsets = at, bits = at + (isOne ? 0 : 8 * (count + 1)), start = bits + (isOne ? 0 : 8 * Math.ceil(count / 64));
    let end = start;
    if (isOne) end = this.#lay(rows, end);
    else {
      all.fill(0, bits, start);
      for (let row = 0; row < count; row++) {
        this.#setAt(offsets + 8 * row, end - start);
        const text = rows[from + row];
        if (text == null) continue;
        all[bits + (row >> 3)] |= 1 << (row & 7);
        end = this.#lay(text, end);
      }
      this.#setAt(offsets + 8 * count, end - start);
    }
    const fields = [offsets, isOne ? 0 : count + 1, start, end - start, bits, isOne ? 0 : Math.ceil(count / 8), 0];
    fields.forEach((field, i) => this.#setAt(struct + 8 * i, field));
    return (end + 7) & ~7;
  }

  /**
   * What columns, by their numbers in phone.h, tell of `count` texts from one on, each read by itself under its hint or the one of all, which are
   * arrays of strings and of nothing; of each the places of its buffers, offsets and bytes of texts, else values, in `bytes`, which stand until the next call.
   */
  columns(rows, hints, from, count, columns) {
    let room = 64;
    for (const all of [rows, hints])
      if (typeof all === "string") room += 3 * all.length + 8;
      else for (let row = from; row < from + count; row++) room += 3 * (all[row]?.length ?? 0) + 9;
    const structs = 2 * 56, numbers = 8 * columns.length, places = 32 * columns.length;
    this.#grow(this.#in, room + structs + numbers + places + 256);
    const base = this.#in.at, numbersAt = base + structs, placesAt = numbersAt + numbers;
    const next = this.#layColumn(base, placesAt + places, rows, from, count);
    this.#layColumn(base + 56, next, hints, from, count);
    const view = this.#view();
    columns.forEach((number, i) => view.setUint32(numbersAt + 4 * i, number, true));
    this.#bytes().fill(0, placesAt, placesAt + places);
    this.#asked(this.#written((...out) => this.#calls.phone_columns(this.#handle, base, base + 56, numbersAt,
      columns.length, placesAt, 2 * columns.length, ...out)));
    const out = this.#out.at;
    let at = placesAt;
    const place = () => {
      const found = [0, 8].map((it) => out + this.#at(at + it));
      at += 16;
      return found;
    };
    return { bytes: this.#bytes(), view: this.#view(), places: columns.map((number) => (number <= MODES.RFC3966 ? [place(), place()] : [place()])) };
  }

  /** The ids of the table's regions, and its calling codes. */
  regions() {
    this.#asked(this.#written((...out) => this.#calls.phone_regions(this.#handle, ...out)));
    return this.#text().match(/../g) ?? [];
  }
  codes() {
    this.#asked(this.#written((...out) => this.#calls.phone_codes(this.#handle, ...out), 2));
    const at = this.#out.at, view = this.#view();
    return Array.from({ length: this.#length() }, (_, i) => view.getUint16(at + 2 * i, true));
  }
  /** The version of the table that the library was released with. */
  tableVersion() {
    this.#asked(this.#written((...out) => this.#calls.phone_table_version(...out)));
    return this.#text();
  }
  /** Closes the table. */
  close() { this.#calls.phone_close(this.#handle); }
  /** How many bytes the instance has of memory. */
  get memory() { return this.#calls.memory.buffer.byteLength; }
}
