import type { PhoneNumber, Phones } from "./index.js";

/** Defines `<phone-input>`, or an element of another name, over the names of the package. */
export function define(phones: Phones, name?: string): void;

/** The element. */
export interface PhoneInput extends HTMLElement {
  /** What stands in the field. */
  value: string;
  /** The region, by its id; empty for none. */
  region: string;
  readonly number: PhoneNumber | undefined;
  /** The E.164 text of the number that stands there; empty where none does. */
  readonly e164: string;
  readonly form: HTMLFormElement | null;
  readonly validity: ValidityState;
  readonly validationMessage: string;
  checkValidity(): boolean;
  reportValidity(): boolean;
}
