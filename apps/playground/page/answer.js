// The answer to a question or a whole case, which is a question as one text: verdict, faults, reasons, rights, signatures and picture. A fault is a
// refusal at the box that it is about, with its places, which say where the text is wrong and why.
import { picture, stepsInWords } from "./chain.js";
import { byId, htmlElement, setText } from "./dom.js";
import { markAsNew } from "./state.js";

const KINDS = { yes: "Yes", no: "No", refused: "Refused" };
const CARDS = ["picture-card", "reasons-card", "rights-card", "text-card"];

/** A reason as `explain` writes it, but with the number of a certificate among the certificates in the place of its number among all items. */
const lineOf = (reason) => [reason.entry && `entry ${reason.entry}`, reason.certificate && `certificate ${reason.certificate}`, reason.word]
  .filter(Boolean).join(" ");
// Begins the tooltip of such a line, which has the line of `explain` itself.
const EXPLAINED = "spki explain counts all items: keys, certificates and signatures. It writes: ";

/** Shows a text in the element with this id: what is missing of an answer, or why there is none. Without a text it hides the element. */
export function showNotice(id, text) {
  byId(id).hidden = !text;
  setText(byId(id), text ?? "");
}

export class Answer {
  /** `boxes` are all boxes of the page by their names. The function `changed` is called when a user has changed the tick of a signature, or of all.
    * The field `refused` has the places, from 0, of signatures whose tick was taken away, and `accepted` the names of those that were ticked, which
    * the server has made of the whole signatures. Draws the picture again when its width changes. */
  constructor(boxes, changed) {
    this.boxes = boxes;
    this.changed = changed;
    [this.signatures, this.refused, this.accepted] = [[], [], []];
    // (what is shown: the chain, and what signatures and picture were made of, as text, so that they are not made again)
    this.chain = this.signaturesKey = this.pictureKey = null;
    byId("all").addEventListener("input", () => this.tick([...this.signatures.keys()], byId("all").checked));
    new ResizeObserver(() => this.draw()).observe(byId("picture"));
  }

  /** Shows an answer to a question or a case, as `asking.py` makes it. Parts of it may be missing. */
  show(answer) {
    markAsNew("question");
    if (!answer.kind) {
      this.showNone(answer.notice ?? "The server sent none.");
      return;
    }
    showNotice("notice", answer.notice);
    const title = answer.title || this.titleOfFault(answer);
    const first = answer.reasons?.[0];
    this.showFaults(answer);
    const line = answer.kind === "no" && first ? `no, ${lineOf(first)}` : answer.shown ?? answer.line;
    this.showVerdict(answer.kind, KINDS[answer.kind], title, line, first ? EXPLAINED + first.line : answer.line);
    this.showReasons(answer, title);
    this.showRights(answer);
    this.showSignatures(answer);
    this.showPicture(answer);
    byId("text-card").hidden = !answer.signatures;
    setText(byId("text"), answer.case ?? "");
  }

  /** Shows that there is no answer, and why. The signatures of an earlier answer are dimmed, and the rest of it is hidden. */
  showNone(why) {
    showNotice("notice", "");
    this.showVerdict("none", "No answer", why, "");
    this.showFaults({});
    byId("signatures").classList.add("old");
    CARDS.forEach((id) => byId(id).hidden = true);
  }

  /** Shows in place of a verdict that the answer takes long. */
  wait() {
    byId("verdict").dataset.kind = "none";
    showNotice("notice", "");
    setText(byId("kind"), "..");
    setText(byId("title"), "Waiting for the answer.");
    setText(byId("line"), "");
  }

  /** Shows the decision: its kind, such as `yes`, which styles it, and that as a word, its title as `text`, and its line. `exact` is the tooltip of
    * the line, and has the line of `spki`, since the shown one may have other numbers. */
  showVerdict(kind, word, text, line, exact = "") {
    byId("verdict").dataset.kind = kind;
    byId("line").title = exact;
    setText(byId("kind"), word);
    setText(byId("title"), text);
    setText(byId("line"), line);
    setText(byId("spoken"), `${word}. ${text}`);
  }

  /** The title of a refusal, a sentence: the label of its box, and the remark on its place. Empty if no box is refused. */
  titleOfFault(answer) {
    const [name, fault] = Object.entries(answer.faults ?? {})[0] ?? [];
    if (!name) {
      return "";
    }
    const label = this.boxes[name] ? document.querySelector(`[data-box="${name}"] label`).textContent : "Moment";
    const why = fault.places[0]?.why;
    const sentence = why ? `${label}: ${why}` : `${label} cannot be read`;
    return /[.?]$/.test(sentence) ? sentence : `${sentence}.`;
  }

  /** Shows at each box its fault in an answer, or none: at those of the texts, of the labels and of the moment. */
  showFaults(answer) {
    const faults = answer.faults ?? {};
    for (const name of ["acl", "sequence", "key", "request", "case"]) {
      this.boxes[name].showFault(faults[name] ?? null);
    }
    const label = answer.labelFaults?.[0];
    this.boxes.labels.showFault(label ? { line: `line ${label.line}: ${label.why}`, places: [] } : null);
    byId("at").setAttribute("aria-invalid", String(Boolean(faults.at)));
    byId("at-fault").replaceChildren(...(faults.at ? [htmlElement("li", {}, faults.at.places[0]?.why || "This is no moment.")] : []));
  }

  /** Lists the reasons of an answer. Of a refusal the only reason is its title. */
  showReasons(answer, title) {
    const refusal = { says: title, hint: "A refusal decides nothing. A service treats it as a no.", word: answer.shown ?? answer.line };
    const reasons = answer.kind === "refused" ? [refusal] : answer.reasons ?? [];
    const more = answer.more ? htmlElement("li", {}, answer.more === 1 ? "and 1 more entry" : `and ${answer.more} more entries`) : "";
    byId("reasons-card").hidden = !reasons.length;
    byId("reasons").replaceChildren(...reasons.map((reason, place) => this.reasonItem(answer, reason, place === 0)), more);
  }

  /** The element of HTML for a reason of an answer: the reason in words, what to do if it is the first, and its line. */
  reasonItem(answer, reason, isFirst) {
    const hint = isFirst && reason.hint ? htmlElement("p", { class: "hint" }, reason.hint) : "";
    const line = htmlElement("code", { title: reason.line ? EXPLAINED + reason.line : answer.line }, lineOf(reason));
    return htmlElement("li", { class: isFirst ? "first" : "", "data-kind": answer.kind }, htmlElement("p", {}, reason.says), hint, line);
  }

  /** Lists the rights that remain of the entries, each with who holds it. Hides the list if the answer has no field `rights` yet. A right whose
    * field `before` is not 0 is that in front of the certificate of this number, which stops the chain, so it is none at the end. If all are such
    * rights, or there is none, a last line says so. */
  showRights(answer) {
    const rights = answer.rights ?? [];
    byId("rights-card").hidden = !answer.rights;
    byId("rights").replaceChildren(...rights.map((right) => htmlElement("li", {}, htmlElement("strong", {}, right.holder),
      `${right.before ? ` before certificate ${right.before}` : ""} by entry ${right.entry}, ${right.window}`,
      right.passes ? ", may be passed on" : "", htmlElement("code", {}, right.tag))),
    rights.some((right) => !right.before) ? "" : htmlElement("li", {}, "Nothing remains at the end."));
  }

  /** Lists the signatures with their ticks, unless they are shown already, and dims the list if the answer has none yet. A tick that has the focus
    * keeps it. */
  showSignatures(answer) {
    const key = JSON.stringify(answer.signatures);
    byId("signatures").classList.toggle("old", !answer.signatures);
    if (!answer.signatures || key === this.signaturesKey) {
      return;
    }
    [this.signaturesKey, this.signatures] = [key, answer.signatures];
    byId("all").checked = this.signatures.every((signature) => signature.counts);
    const focused = [...byId("signatures").querySelectorAll("input")].indexOf(document.activeElement);
    byId("signatures").replaceChildren(...answer.signatures.map((signature, place) => this.signatureItem(signature, place)));
    byId("signatures").querySelectorAll("input")[focused]?.focus();
  }

  /** Ticks the signatures at some places, or takes their ticks away. */
  tick(places, isTicked) {
    const names = places.map((place) => this.signatures[place].id);
    this.refused = [...this.refused.filter((place) => !places.includes(place)), ...(isTicked ? [] : places)];
    this.accepted = [...this.accepted.filter((name) => !names.includes(name)), ...(isTicked ? names : [])];
    this.changed();
  }

  /** The element of HTML for a signature, by its place from 0: a tick, which says whether the signature counts, and who signed what. Of a real key the
    * page cannot say that it signed. */
  signatureItem(signature, place) {
    const tick = htmlElement("input", { type: "checkbox" });
    tick.checked = signature.counts;
    tick.addEventListener("change", () => this.tick([place], tick.checked));
    const certificate = `certificate ${place + 1}`;
    const remark = signature.madeUp ? " (made up)" : signature.isTest ? "" : " (not verified here)";
    const says = htmlElement("span", { title: signature.says }, signature.isTest ? `${signature.by} signed ${certificate}`
      : `In the name of ${signature.by}, on ${certificate}`, remark && htmlElement("small", {}, remark));
    return htmlElement("li", {}, htmlElement("label", { class: "tick" }, tick, says));
  }

  /** Draws the chain of an answer, and writes it in words, unless it is shown already. */
  showPicture(answer) {
    byId("picture-card").hidden = !answer.chain;
    const key = JSON.stringify([answer.chain, byId("title").textContent]);
    if (answer.chain && key !== this.pictureKey) {
      [this.chain, this.pictureKey] = [answer.chain, key];
      byId("steps").replaceChildren(...stepsInWords(answer.chain));
      this.draw();
    }
  }

  /** Draws the picture of the last chain, for the width that there is. */
  draw() {
    const width = Math.floor(byId("picture").clientWidth);
    if (this.chain && width) {
      byId("picture").replaceChildren(picture(this.chain, width, `The chain of this answer. ${byId("title").textContent}`));
    }
  }
}
