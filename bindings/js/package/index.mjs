// phonenumber-proved: the names below are ready when the module is.
import { load } from "./load.mjs";

export { PhoneError } from "./engine.mjs";
export { ParseError } from "./api.mjs";
export { isSupported, load } from "./load.mjs";

const phones = await load();
export const { PhoneNumber, parsePhoneNumber, parsePhoneNumberFromString, parsePhoneNumberWithError, isValidPhoneNumber,
  isPossiblePhoneNumber, validatePhoneNumberLength, findPhoneNumbersInText, searchPhoneNumbersInText, AsYouType, getCountries,
  isSupportedCountry, getCountryCallingCode, getExampleNumber, compareTexts, report, columns, tableVersion } = phones;
export default parsePhoneNumber;
