// Whether what the page shows is the answer to what is typed. What answers an earlier text is dimmed at once, and hidden when the new answer
// takes long: so nothing is read as the answer to another question.
import { byId } from "./dom.js";

// After how many milliseconds an answer counts as one that takes long.
const WAITING = 300;
const PARTS = { question: "#verdict, #answer, #signatures, .fault", times: "#bar, #span", tags: "#tags-card", forms: "#forms-card" };
let waitTimer;

/** The elements of a part, by its name in PARTS. */
const elements = (name) => document.querySelectorAll(PARTS[name]);

/** Marks all parts as those of an earlier text, which dims them. After WAITING milliseconds those that are still marked are hidden, and `whenSlow`
 * is called if the verdict is one of them. */
export function markAllAsOld(whenSlow) {
  clearTimeout(waitTimer);
  for (const name of Object.keys(PARTS)) {
    elements(name).forEach((element) => element.classList.add("old"));
  }
  waitTimer = setTimeout(() => {
    document.querySelectorAll(".old").forEach((element) => element.classList.add("blank"));
    if (byId("verdict").matches(".old")) {
      whenSlow();
    }
  }, WAITING);
}

/** Marks a part, by its name in PARTS, as the answer to what is typed, so that it is neither dimmed nor hidden. */
export function markAsNew(name) {
  elements(name).forEach((element) => element.classList.remove("old", "blank"));
}
