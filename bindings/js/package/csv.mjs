// CSV in a page: read, given more columns, and written again.

/** The records of a text, each an array of fields; by commas, semicolons or tabs, whichever the first line has most of. */
export function recordsOf(text) {
  text = text.replace(/^\ufeff/, "");
  const first = text.slice(0, text.search(/\r?\n|$/)), count = (mark) => first.split(mark).length;
  const mark = [",", ";", "\t"].reduce((a, b) => (count(b) > count(a) ? b : a));
  const records = [];
  let record = [], field = "", isQuoted = false, at = 0;
  for (; at < text.length; at++) {
    const c = text[at];
    if (isQuoted) {
      if (c !== '"') field += c;
      else if (text[at + 1] === '"') field += text[at++];
      else isQuoted = false;
    } else if (c === '"' && field === "") isQuoted = true;
    else if (c === mark || c === "\n" || c === "\r") {
      if (c === "\r" && text[at + 1] === "\n") at++;
      record.push(field);
      field = "";
      if (c !== mark) {
        if (record.length > 1 || record[0] !== "") records.push(record);
        record = [];
      }
    } else field += c;
  }
  if (field !== "" || record.length) records.push([...record, field]);
  return { records, mark };
}

const written = (field, mark) => (/["\r\n]/.test(field) || field.includes(mark) ? `"${field.replaceAll('"', '""')}"` : field);

/** The columns of numbers and of regions in a header, by their names; -1 where there is none. */
export function columnsOf(header) {
  const find = (pattern) => header.findIndex((it) => pattern.test(it.trim()));
  return { number: find(/phone|tel|mobile|number|handy|mobil|nummer/i), region: find(/^(country|region|land|pays|pa[ií]s|iso)/i) };
}

/** A table with columns behind its own: E.164 text, type, country, validity, and why there is no number; and how many have each. */
export function cleaned(phones, text, { number, region, fallback = "", progress } = {}) {
  const { records, mark } = recordsOf(text);
  if (!records.length) throw new Error("The file is empty.");
  const [header, ...rows] = records, found = columnsOf(header);
  const column = number ?? found.number, regions = region ?? found.region;
  if (column < 0) throw new Error(`No column of phone numbers among ${header.join(", ")}.`);
  const counts = { records: rows.length, valid: 0, invalid: 0, refused: 0, types: {} };
  const lines = [[...header, "e164", "type", "country", "validity", "refusal"]];
  const told = phones.columns(rows.map((it) => it[column] ?? ""), { progress, columns: ["e164", "type", "country", "valid", "refusal"],
    regions: rows.map((it) => (phones.isSupportedCountry(it[regions]) ? it[regions] : fallback)) });
  rows.forEach((row, i) => {
    const validity = told.e164[i] === undefined ? "" : told.valid[i] ? "valid" : "invalid", type = told.type[i] ?? "";
    counts[validity || "refused"]++;
    if (validity === "valid") counts.types[type] = (counts.types[type] ?? 0) + 1;
    lines.push([...row, told.e164[i] ?? "", type, told.country[i] ?? "", validity, told.refusal[i] ?? ""]);
  });
  return { text: lines.map((it) => it.map((field) => written(field, mark)).join(mark) + "\n").join(""), counts };
}
