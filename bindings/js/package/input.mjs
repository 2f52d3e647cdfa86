// <phone-input>: a field for a phone number, with its region, once `define` was called with the names of the package.
//
//   <phone-input name="phone" region="NZ" required></phone-input>
//
// In a form its value is the E.164 text of a number that is valid, or empty. It tells of each change by the events `input` and `change`;
// the key Enter submits the form. Its name for a screen reader is that of `aria-label`, else of its `<label>`.
// Attributes: name, value (a text), region (an id; else the browser's), required, disabled, placeholder (else an example of the region).
// Properties: value (what is typed), number (the PhoneNumber, or undefined), e164, region. Parts for styles: region, field, hint.
const WORDS = { TOO_SHORT: "The number is too short.", TOO_LONG: "The number is too long.", INVALID_LENGTH: "No number there has so many digits.",
  INVALID_COUNTRY: "Choose a country, or begin with + and the country's code.", NOT_A_NUMBER: "This is no phone number." };
const SHEET = `
  :host { display: inline-block; position: relative; font: inherit; color-scheme: light dark; max-width: 100%; }
  :host([hidden]) { display: none; }
  div { display: flex; border: 1px solid light-dark(#767676, #9a9a9a); border-radius: .4em; background: Field; color: FieldText; }
  div:focus-within { outline: 2px solid light-dark(#0a5cd6, #8ab4f8); outline-offset: 1px; }
  label { position: relative; display: flex; align-items: center; padding: 0 .5em; gap: .3em; border-inline-end: 1px solid light-dark(#767676, #9a9a9a); }
  select { position: absolute; inset: 0; opacity: 0; font: inherit; width: 100%; cursor: pointer; }
  input { font: inherit; border: 0; outline: 0; padding: .5em; min-width: 0; flex: 1 12em; background: transparent; color: inherit; }
  input::placeholder { color: light-dark(#666, #b4b4b4); opacity: 1; }
  label:focus-within { outline: 2px solid light-dark(#0a5cd6, #8ab4f8); outline-offset: -2px; border-radius: .4em; }
  p { margin: .2em 0 0; min-height: 1.2em; font-size: .85em; color: CanvasText; }
  p.wrong { color: light-dark(#b00020, #ff9a9a); }
  :host(:state(wrong)) div { border-color: light-dark(#b00020, #ff9a9a); }
`;

/** A region's flag, of two letters that stand for it. */
const flagOf = (region) => String.fromCodePoint(...[...region].map((it) => 0x1f1e6 + it.charCodeAt(0) - 65));

/** The region of the browser's languages that the table has; empty where none says one. */
function regionOfBrowser(phones) {
  for (const language of globalThis.navigator?.languages ?? []) {
    const region = new Intl.Locale(language).maximize().region;
    if (region && phones.isSupportedCountry(region)) return region;
  }
  return "";
}

/** Where a key stands in a text: its place among digits and the plus sign in front. */
const keysBefore = (text, place) => text.slice(0, place).replace(/(?!^)[+\uff0b]|[^\p{Nd}+\uff0b]/gu, "").length;

/** Defines the element, over the names of the package. */
export function define(phones, name = "phone-input") {
  if (customElements.get(name)) return;
  const names = new Intl.DisplayNames(globalThis.navigator?.languages ?? ["en"], { type: "region", fallback: "code" });

  class PhoneInput extends HTMLElement {
    static formAssociated = true;
    static observedAttributes = ["value", "region", "required", "disabled", "placeholder"];
    #form = this.attachInternals();
    #select;
    #field;
    #hint;
    #flag;
    #was = "";

    constructor() {
      super();
      const root = this.attachShadow({ mode: "open", delegatesFocus: true });
      root.innerHTML = `<style>${SHEET}</style><div part="box"><label part="region"><span aria-hidden="true"></span><span class="code"></span>
        <select aria-label="Country"></select></label><input part="field" type="tel" autocomplete="tel" inputmode="tel" aria-describedby="hint"></div>
        <p part="hint" id="hint" role="status" aria-live="polite"></p>`;
      [this.#select, this.#field, this.#hint] = ["select", "input", "p"].map((it) => root.querySelector(it));
      this.#flag = root.querySelectorAll("label span");
      const options = phones.getCountries().map((region) => [names.of(region), region]).sort((a, b) => a[0].localeCompare(b[0]));
      this.#select.append(new Option("No country", ""), ...options.map(([text, region]) => new Option(`${text} +${phones.getCountryCallingCode(region)}`, region)));
      this.#field.addEventListener("input", (event) => this.#typed(event));
      this.#field.addEventListener("change", () => this.dispatchEvent(new Event("change", { bubbles: true })));
      this.#field.addEventListener("blur", () => this.#show(true));
      this.#field.addEventListener("keydown", (event) => event.key === "Enter" && !event.isComposing && this.#submit());
      this.#select.addEventListener("change", () => this.#chosen());
      this.addEventListener("invalid", () => this.#refused());
      // (a click on its `<label>` comes here, and is meant for the number)
      this.addEventListener("click", (event) => event.composedPath()[0] === this && this.#field.focus());
    }

    connectedCallback() {
      if (!this.#select.value) this.#take(this.getAttribute("region") || regionOfBrowser(phones));
      if (this.hasAttribute("value") && !this.#field.value) this.value = this.getAttribute("value");
      const labels = [...this.#form.labels ?? []].map((it) => it.textContent.trim()).join(" ");
      this.#field.setAttribute("aria-label", this.getAttribute("aria-label") || labels || "Phone number");
      this.#show(false);
    }
    attributeChangedCallback(attribute, _, to) {
      if (attribute === "region" && to !== null) this.#take(to);
      if (attribute === "value" && this.isConnected) this.value = to ?? "";
      if (attribute === "placeholder" || attribute === "disabled") this.#take(this.region);
      this.#show(false);
    }
    formResetCallback() { this.value = this.getAttribute("value") ?? ""; }
    formDisabledCallback(is) { this.#field.disabled = this.#select.disabled = is; }
    formStateRestoreCallback(state) { this.value = state; }

    get form() { return this.#form.form; }
    get name() { return this.getAttribute("name"); }
    get validity() { return this.#form.validity; }
    get validationMessage() { return this.#form.validationMessage; }
    checkValidity() { return this.#form.checkValidity(); }
    reportValidity() { return this.#show(true), this.#form.reportValidity(); }

    /** The region, by its id; empty for none. */
    get region() { return this.#select.value; }
    set region(id) { this.#take(id), this.#shape(), this.#show(false); }
    /** What stands in the field. */
    get value() { return this.#field.value; }
    set value(text) {
      this.#field.value = text;
      this.#shape();
      this.#show(false);
    }
    /** The number that stands there; undefined where none does. */
    get number() { return phones.parsePhoneNumber(this.#field.value, this.region); }
    get e164() { return this.number?.number ?? ""; }

    /** Shows a region. */
    #take(id) {
      const region = phones.isSupportedCountry(id) ? id : "";
      this.#select.value = region;
      this.#flag[0].textContent = region ? flagOf(region) : "\u{1F310}";
      this.#flag[1].textContent = region ? `+${phones.getCountryCallingCode(region)}` : "+";
      const example = region && phones.getExampleNumber(region);
      this.#field.placeholder = this.getAttribute("placeholder") ?? (example ? example.formatNational() : "+64 21 123 4567");
    }
    #chosen() {
      this.#take(this.#select.value);
      this.#shape();
      this.#show(false);
      for (const it of ["input", "change"]) this.dispatchEvent(new Event(it, { bubbles: true }));
    }
    /** Lays out what is typed, and keeps the caret behind its key. */
    #shape(caret = this.#field.value.length) {
      const text = this.#field.value;
      if (/[^\p{Nd}\s+\uff0b().\-/]/u.test(text) || !text) return;
      const keys = keysBefore(text, caret), typing = new phones.AsYouType(this.region);
      const shown = typing.input(text);
      this.#field.value = shown;
      if (this.shadowRoot.activeElement !== this.#field) return;
      const place = keys < keysBefore(text, text.length) ? typing.caret(keys) : shown.length;
      this.#field.setSelectionRange(place, place);
    }
    #typed(event) {
      const text = this.#field.value;
      // A mark that was taken away takes the key in front of it away too.
      const isBack = event.inputType === "deleteContentBackward" && keysBefore(text, text.length) === keysBefore(this.#was, this.#was.length);
      let caret = this.#field.selectionStart;
      if (isBack && this.#was.length === text.length + 1) {
        const before = text.slice(0, caret).replace(/[\p{Nd}+\uff0b][^\p{Nd}+\uff0b]*$/u, "");
        this.#field.value = before + text.slice(caret);
        caret = before.length;
      }
      this.#shape(caret);
      const country = /^\s*[+\uff0b]/u.test(this.#field.value) && this.number?.country;
      if (country) this.#take(country);
      this.#show(false);
      this.dispatchEvent(new Event("input", { bubbles: true }));
    }
    /** Sends the form, as Enter in a field does: by its first button that sends, unless that is disabled. */
    #submit() {
      const button = [...this.form?.elements ?? []].find((it) => it.type === "submit");
      if (!button?.disabled) this.form?.requestSubmit(button);
    }
    /** Says what is lacking, and takes the focus to the number, where the form can't be sent. */
    #refused() {
      this.#show(true, true);
      setTimeout(() => this.shadowRoot.activeElement === this.#select && this.#field.focus());
    }
    /** Tells the form what stands there, and the user what is lacking: of a short number only once it is left, of none once it is sent. */
    #show(isLeft, isSent = false) {
      const text = this.#field.value, number = this.number, isEmpty = !text.trim(), isRequired = this.hasAttribute("required");
      this.#was = text;
      const reason = isEmpty ? undefined : phones.validatePhoneNumberLength(text, this.region);
      const isValid = number?.isValid() ?? false;
      const lacking = isRequired ? "Please fill in a phone number." : "";
      const words = isEmpty ? lacking : isValid ? "" : WORDS[reason] ?? "No such number is given out.";
      const isTold = words !== "" && (isSent || isLeft && !isEmpty || reason === "TOO_LONG");
      this.#hint.textContent = isValid ? `${number.formatInternational()}` : isTold ? words : "";
      this.#hint.classList.toggle("wrong", isTold);
      this.#form.states[isTold ? "add" : "delete"]("wrong");
      this.#field.setAttribute("aria-invalid", String(isTold));
      this.#field.setAttribute("aria-required", String(isRequired));
      this.#form.setFormValue(isValid ? number.number : "", text);
      if (words) this.#form.setValidity(isEmpty ? { valueMissing: true } : { customError: true }, words, this.#field);
      else this.#form.setValidity({});
    }
  }
  customElements.define(name, PhoneInput);
}
