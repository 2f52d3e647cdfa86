/** Phone numbers, parsed, validated and formatted by a proved library in WebAssembly. */

/** The id of a region, as "NZ". */
export type CountryCode = string;
export type NumberType =
  | "FIXED_LINE" | "MOBILE" | "FIXED_LINE_OR_MOBILE" | "TOLL_FREE" | "PREMIUM_RATE" | "SHARED_COST" | "PERSONAL_NUMBER" | "VOIP" | "PAGER"
  | "UAN" | "VOICEMAIL" | undefined;
export type NumberFormat = "E.164" | "INTERNATIONAL" | "NATIONAL" | "RFC3966";
export type LengthReason = "TOO_SHORT" | "TOO_LONG" | "INVALID_LENGTH" | "INVALID_COUNTRY" | "NOT_A_NUMBER";
/** The region in which a text was written, or an object that names it. */
export type Options = CountryCode | { defaultCountry?: CountryCode };

/** A phone number. */
export interface PhoneNumber {
  readonly countryCallingCode: string;
  /** With its leading zeros. */
  readonly nationalNumber: string;
  /** The E.164 text. */
  readonly number: string;
  readonly country?: CountryCode;
  readonly ext?: string;
  readonly carrierCode?: string;
  /** How the calling code was found. */
  readonly source: "plus" | "idd" | "number" | "default";
  format(format: NumberFormat): string;
  formatNational(): string;
  formatInternational(): string;
  /** The `tel:` text of RFC 3966. */
  getURI(): string;
  /** How it is dialled from a region. */
  formatFrom(region: CountryCode): string;
  getType(): NumberType;
  isValid(): boolean;
  isPossible(): boolean;
  validateLength(): LengthReason | undefined;
  isNonGeographic(): boolean;
  isEqual(other: PhoneNumber): boolean;
  setExt(ext: string | undefined): void;
  toString(): string;
}

/** Why a text is no number: `message` is a LengthReason. */
export class ParseError extends Error {
  readonly status: number;
}
/** A call failed otherwise, as for memory. */
export class PhoneError extends Error {
  readonly status: number;
}

export interface FoundNumber {
  /** In characters of JavaScript. */
  startsAt: number;
  endsAt: number;
  number: PhoneNumber;
}

/** A number as it is typed. */
export interface AsYouTypeFormatter {
  /** Types characters, and gives what is shown. */
  input(characters: string): string;
  reset(): void;
  readonly shown: string;
  /** After how many characters of what is shown the n-th key stands. */
  caret(n: number): number;
  getChars(): string;
  getNumber(): PhoneNumber | undefined;
  getNumberValue(): string | undefined;
  getCountry(): CountryCode | undefined;
  getCallingCode(): string | undefined;
  isInternational(): boolean;
  isPossible(): boolean;
  isValid(): boolean;
}

export type Column =
  | "e164" | "international" | "national" | "rfc3966" | "type" | "country" | "valid" | "callingCode" | "nationalNumber" | "extension" | "refusal";
export interface ColumnOptions {
  /** The region of all texts, or one for each. */
  regions?: CountryCode | (CountryCode | null | undefined)[];
  columns?: Column[];
  progress?: (done: number, count: number) => void;
}

export interface Phones {
  parsePhoneNumber(text: string, options?: Options): PhoneNumber | undefined;
  parsePhoneNumberFromString(text: string, options?: Options): PhoneNumber | undefined;
  parsePhoneNumberWithError(text: string, options?: Options): PhoneNumber;
  isValidPhoneNumber(text: string, options?: Options): boolean;
  isPossiblePhoneNumber(text: string, options?: Options): boolean;
  validatePhoneNumberLength(text: string, options?: Options): LengthReason | undefined;
  findPhoneNumbersInText(text: string, options?: Options | { defaultCountry?: CountryCode; leniency?: "POSSIBLE" | "VALID" }): FoundNumber[];
  searchPhoneNumbersInText(text: string, options?: Options): Iterable<FoundNumber>;
  AsYouType: new (options?: Options) => AsYouTypeFormatter;
  getCountries(): CountryCode[];
  isSupportedCountry(region: string): boolean;
  getCountryCallingCode(region: CountryCode): string;
  getExampleNumber(region: CountryCode, type?: NumberType): PhoneNumber | undefined;
  compareTexts(one: string, two: string): "exact" | "number" | "national" | "end" | "different";
  report(line: string, region?: CountryCode): string;
  columns(texts: (string | null | undefined)[], options?: ColumnOptions): Record<string, unknown[]>;
  tableVersion(): string;
}

export interface LoadOptions {
  /** The bytes of the module and of the metadata, gzip or not; else the files beside the package's. */
  module?: Uint8Array;
  table?: Uint8Array;
  rules?: "library" | "crate";
}
export function load(options?: LoadOptions): Promise<Phones>;
/** Whether this machine runs the library: Node 18 or later, and browsers of 2023 or later. */
export function isSupported(): boolean;

export const parsePhoneNumber: Phones["parsePhoneNumber"];
export const parsePhoneNumberFromString: Phones["parsePhoneNumberFromString"];
export const parsePhoneNumberWithError: Phones["parsePhoneNumberWithError"];
export const isValidPhoneNumber: Phones["isValidPhoneNumber"];
export const isPossiblePhoneNumber: Phones["isPossiblePhoneNumber"];
export const validatePhoneNumberLength: Phones["validatePhoneNumberLength"];
export const findPhoneNumbersInText: Phones["findPhoneNumbersInText"];
export const searchPhoneNumbersInText: Phones["searchPhoneNumbersInText"];
export const AsYouType: Phones["AsYouType"];
export const getCountries: Phones["getCountries"];
export const isSupportedCountry: Phones["isSupportedCountry"];
export const getCountryCallingCode: Phones["getCountryCallingCode"];
export const getExampleNumber: Phones["getExampleNumber"];
export const compareTexts: Phones["compareTexts"];
export const report: Phones["report"];
export const columns: Phones["columns"];
export const tableVersion: Phones["tableVersion"];
export default parsePhoneNumber;
