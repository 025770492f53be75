// A box for a text, in which places can be underlined: a mirror of the text lies behind it. A place says where a text is refused, and why.
import { htmlElement } from "./dom.js";
import { hasPrivateKey } from "./secret.js";

const SECRET = "A private key belongs into no box, and this one was emptied. `spki-cert key FILE` writes the public key. If somebody saw the private "
  + "one, replace it.";

export class Box {
  /** Fills an element that has a label and a hint. `changed` is called when a user has changed the text. */
  constructor(element, changed) {
    // (what is shown of a refusal, as text, so that it is not made again, and the remark on a private key that was in the box)
    this.faultKey = this.remark = "";
    const label = element.querySelector("label");
    this.name = label.htmlFor;
    this.text = htmlElement("textarea", { id: this.name, rows: 1, spellcheck: "false", autocomplete: "off", autocapitalize: "off",
      "aria-describedby": `${this.name}-hint ${this.name}-fault` });
    this.mirror = htmlElement("div", { class: "mirror", "aria-hidden": "true" });
    this.faults = htmlElement("ul", { class: "fault", id: `${this.name}-fault` });
    element.append(htmlElement("div", { class: "field" }, this.mirror, this.text), this.faults);
    this.text.addEventListener("input", () => {
      this.dropPrivateKey();
      changed();
    });
    this.showFault(null);
  }

  /** Empties the box if its text has a private key, and shows a remark that says so, which stays until the text is changed again. */
  dropPrivateKey() {
    this.remark = hasPrivateKey(this.value) ? SECRET : "";
    if (this.remark) {
      this.text.value = "";
      this.showFault(null);
    }
    this.fillMirror();
  }

  /** The text that is typed. */
  get value() {
    return this.text.value;
  }

  /** Replaces the text, by an empty one if it has a private key. A refusal of the old one is no longer shown, and `changed` is not called. */
  set value(text) {
    this.text.value = text;
    this.dropPrivateKey();
    this.showFault(null);
  }

  /** Shows a refusal, an object: its line (`shown` or `line`), and its `places` with their remarks, as `place.py` makes them. For null shows none. */
  showFault(fault) {
    const places = fault?.places ?? [];
    this.fillMirror(places[0]);
    this.text.setAttribute("aria-invalid", String(Boolean(fault)));
    const key = JSON.stringify([this.remark, fault]);
    if (key === this.faultKey) {
      return;
    }
    this.faultKey = key;
    // (four places are enough: a deep text may have one for each list that is open)
    const further = places.slice(1, 4).map((place) => this.furtherItem(place));
    const remark = this.remark ? [htmlElement("li", {}, this.remark)] : [];
    this.faults.replaceChildren(...remark, ...(fault ? [this.firstItem(fault, places[0]), ...further] : []));
  }

  /** The element of HTML for the first place of a refusal, or for a refusal without a place. */
  firstItem(fault, place) {
    const line = htmlElement("code", {}, ` ${fault.shown ?? fault.line}`);
    if (!place) {
      return htmlElement("li", {}, "This is refused.", line);
    }
    return htmlElement("li", {}, this.placeButton(place), `: ${place.why}`, line);
  }

  /** The element of HTML for a further place of a refusal. */
  furtherItem(place) {
    return htmlElement("li", { class: "further" }, this.placeButton(place), `: ${place.why}`);
  }

  /** A button that selects a place in the text. */
  placeButton(place) {
    const button = htmlElement("button", { type: "button" }, `Line ${place.line}, column ${place.column}`);
    button.addEventListener("click", () => {
      this.text.focus();
      this.text.setSelectionRange(place.begin, Math.max(place.end, place.begin));
    });
    return button;
  }

  /** Copies the text into the mirror, which lies behind it. If `place` is given, an object with `begin` and `end`, the text between is underlined. */
  fillMirror(place) {
    // (a line feed at the end has no height without something behind it: here a space of no width)
    const text = this.value, end = "\u200b";
    if (!place) {
      this.mirror.textContent = text + end;
      return;
    }
    const mark = htmlElement("mark", {}, text.slice(place.begin, place.end));
    // (a place without a visible character, as the end of the text, is marked in another way)
    mark.classList.toggle("at-end", !text.slice(place.begin, place.end).trim());
    this.mirror.replaceChildren(text.slice(0, place.begin), mark, text.slice(place.end) + end);
  }
}
