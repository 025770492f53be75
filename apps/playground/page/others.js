// The answers about tags and forms. A refusal is shown at the box that it is about (`showFault`), and null there shows none.
import { showNotice } from "./answer.js";
import { byId, htmlElement, setText } from "./dom.js";
import { markAsNew } from "./state.js";

/** Shows the answer about two tags and a request, as `tags` of `asking.py` makes it. `boxes` are all boxes of the page by their names. */
export function showTags(boxes, answer) {
  markAsNew("tags");
  showNotice("tags-notice", answer.notice);
  boxes.first.showFault(answer.first?.line ? answer.first : null);
  boxes.second.showFault(answer.second?.line ? answer.second : null);
  const refusal = answer.first?.requestLine ?? answer.second?.requestLine;
  boxes.words.showFault(refusal ? { line: refusal, places: [] } : null);
  const parts = [["The first tag", answer.first], ["The second tag", answer.second], ["The intersection", answer.both]];
  const decided = parts.filter(([, part]) => part && "contains" in part);
  byId("contains").replaceChildren(...decided.map(([name, { contains }]) => htmlElement("li", {}, `${name} `,
    htmlElement("strong", { class: contains ? "yes-word" : "no-word" }, contains ? "contains it" : "does not contain it"))));
  if (answer.hint) {
    byId("contains").append(htmlElement("li", { class: "hint" }, answer.hint));
  }
  const both = answer.both;
  setText(byId("both"), both?.line ?? `${both?.text ?? ""}${both?.isWhole === false ? " .." : ""}`);
}

/** Shows the three forms of a value, or its refusal, as `forms` of `asking.py` answers. `boxes` are all boxes of the page by their names. */
export function showForms(boxes, answer) {
  markAsNew("forms");
  showNotice("forms-notice", answer.notice);
  boxes.value.showFault(answer.line ? answer : null);
  for (const name of ["canonical", "advanced", "transport"]) {
    setText(byId(name), answer[name] ?? "");
  }
}
