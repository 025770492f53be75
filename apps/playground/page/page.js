// The page: boxes are filled, and changes are asked about. A panel has the boxes of one kind of question: a question in parts, a whole case, tags or
// forms. One panel is shown.
import { Answer } from "./answer.js";
import { asker, limitOctets } from "./ask.js";
import { Box } from "./box.js";
import { byId, htmlElement, setText } from "./dom.js";
import { stateInFragment, linkTo } from "./link.js";
import { showForms, showTags } from "./others.js";
import { markAllAsOld } from "./state.js";
import { Times, inputValueOf } from "./times.js";

const PANELS = ["question", "case", "tags", "forms"];
// The boxes of the other panels than that of the question.
const OTHERS = ["case", "first", "second", "words", "value"];
// All boxes by their names.
const boxes = {};
for (const element of document.querySelectorAll("[data-box]")) {
  boxes[element.dataset.box] = new Box(element, () => changed());
}
const times = new Times(() => changed());
const answer = new Answer(boxes, () => changed());
// The name of the panel that is shown, and how often something that is asked was changed.
let chosen = "question";
let changes = 0;

// ---- what is asked

/** The lines of a text, each a string of the request. A line feed at the end begins no further one. */
const lines = (text) => (text === "" ? [] : text.replace(/\n$/, "").split("\n"));

/** The moment that is chosen, as a case has it: YYYY-MM-DD_HH:MM:SS. An empty text if none is chosen. */
function moment() {
  const [date, time = ""] = byId("at").value.split("T");
  // (the input leaves out seconds that are 0)
  return date && `${date}_${time.length === 5 ? `${time}:00` : time.slice(0, 8)}`;
}

/** The question in boxes, as a link has it. The ticks of real keys are not in it: who opens the link has verified nothing. */
function question() {
  return { acl: boxes.acl.value, sequence: boxes.sequence.value, key: boxes.key.value, request: lines(boxes.request.value), at: moment(),
    labels: boxes.labels.value, refused: answer.refused, strict: byId("strict").checked };
}

/** The question in boxes, as the object that is sent to the server. */
const asked = () => ({ ...question(), accepted: answer.accepted, withCase: byId("text-card").open });

/** Shows an answer of the server. If it decides or refuses the question in boxes, the server is then asked at which times the answer is yes.
 * Otherwise the scale of time is hidden. */
function showAnswer(reply) {
  answer.show(reply);
  if (reply.kind && chosen === "question") {
    askers.times();
  } else {
    times.show({});
  }
}

/** How often something that is asked was changed so far. An answer is out of date if this has grown since its question was sent. */
const countChanges = () => changes;
const askers = {
  question: asker("question", asked, showAnswer, countChanges),
  case: asker("case", () => ({ text: boxes.case.value, labels: boxes.labels.value }), showAnswer, countChanges),
  times: asker("times", asked, (reply) => times.show(reply), countChanges),
  tags: asker("tags", () => ({ first: boxes.first.value, second: boxes.second.value, request: lines(boxes.words.value) }),
    (reply) => showTags(boxes, reply), countChanges),
  forms: asker("forms", () => ({ text: boxes.value.value }), (reply) => showForms(boxes, reply), countChanges),
};

/** Something that is asked was changed: what is shown is out of date, and the chosen panel asks again. */
function changed() {
  changes += 1;
  markAllAsOld(() => answer.wait());
  askers[chosen]();
}

// ---- what is chosen

/** Fills the boxes of the panel for a question by `given`, an object as `question` returns it, of an example or of the address. What is missing in
 * it is empty. */
function load(given) {
  for (const name of ["acl", "sequence", "key", "labels"]) {
    boxes[name].value = given[name] ?? "";
  }
  boxes.request.value = given.request?.join("\n") ?? "";
  byId("at").value = given.at?.replace("_", "T") ?? "";
  byId("strict").checked = given.strict !== false;
  [answer.refused, answer.accepted] = [given.refused ?? [], []];
}

/** Fills the boxes of the other panels by `given`, an object with a text for each box by its name. A box whose text is missing stays as it is. */
function loadOthers(given) {
  for (const name of OTHERS) {
    if (typeof given[name] === "string") {
      boxes[name].value = given[name];
    }
  }
}

/** Shows a panel, or that of the question if there is none of this name, and asks what is in it. */
function choose(panel) {
  show(panel);
  changed();
}

/** Shows a panel, or that of the question if there is none of this name. */
function show(panel) {
  chosen = PANELS.includes(panel) ? panel : "question";
  for (const name of PANELS) {
    const isChosen = name === chosen;
    byId(`panel-${name}`).hidden = !isChosen;
    byId(`tab-${name}`).setAttribute("aria-selected", String(isChosen));
    byId(`tab-${name}`).tabIndex = isChosen ? 0 : -1;
  }
  byId("answer").hidden = byId("verdict").hidden = !["question", "case"].includes(chosen);
  // (a notice is about the verdict, and hidden with it. Only the next answer shows one again)
  byId("notice").hidden ||= byId("verdict").hidden;
}

/** Chooses another panel by an arrow key, Home or End. */
function moveTab(event) {
  const place = PANELS.indexOf(chosen);
  const step = { ArrowRight: 1, ArrowLeft: -1, Home: -place, End: PANELS.length - 1 - place }[event.key];
  if (step !== undefined) {
    event.preventDefault();
    choose(PANELS[(place + step + PANELS.length) % PANELS.length]);
    byId(`tab-${chosen}`).focus();
  }
}

/** Puts all boxes and the chosen panel into the address, and copies it to the clipboard. For two seconds the button says whether that worked. */
async function copyLink() {
  const others = Object.fromEntries(OTHERS.map((name) => [name, boxes[name].value]));
  const address = linkTo({ panel: chosen, ...question(), ...others });
  history.replaceState(null, "", address);
  try {
    await navigator.clipboard.writeText(address);
    setText(byId("link"), "Copied");
  } catch {
    setText(byId("link"), "See the address bar");
  }
  setTimeout(() => setText(byId("link"), "Copy link"), 2000);
}

/** Puts the case that an answer has, which is the whole question as one text, into the box of the panel for cases. */
function editCase() {
  boxes.case.value = byId("text").textContent;
  choose("case");
  boxes.case.text.focus();
}

/** Fills the menu of examples by their groups. Choosing one loads its question. */
function offerExamples(examples) {
  const groups = {};
  examples.forEach((example, place) => {
    groups[example.group] ??= htmlElement("optgroup", { label: example.group });
    groups[example.group].append(htmlElement("option", { value: place }, example.name));
  });
  byId("example").replaceChildren(htmlElement("option", { value: "", hidden: "" }, "Examples .."), ...Object.values(groups));
  byId("example").addEventListener("change", () => {
    load(examples[Number(byId("example").value)].question);
    choose("question");
  });
}

/** Fills the boxes with what the address holds, and chooses its panel. If it holds nothing, chooses the panel that is shown, which asks again. If it
 * cannot be read, empties the boxes of the question and says so. The address keeps no private key. */
function restore() {
  let given, isBroken = false;
  try {
    given = stateInFragment();
  } catch {
    isBroken = true;
  }
  if (given || isBroken) {
    load(given ?? {});
    loadOthers(given ?? {});
    byId("example").value = "";
  }
  if (Object.values(boxes).some((box) => box.remark)) {
    history.replaceState(null, "", location.pathname);
  }
  if (isBroken) {
    // (nothing is asked, and no answer that is under way is shown)
    changes += 1;
    show("question");
    showAnswer({ notice: "The link cannot be read: a part is missing, or was changed on its way. Copy the whole link again, or choose an example." });
    return;
  }
  choose(given?.panel ?? chosen);
}

/** Fetches `start.json`, fills the page by it, and asks the first question: that of the address, else of the first example. `others` are texts for
  * the boxes of the other panels. Rejects if `start.json` cannot be fetched. */
async function start() {
  const { examples, engine, others, mostOctets } = await (await fetch("start.json")).json();
  limitOctets(mostOctets);
  setText(byId("engine"), engine);
  offerExamples(examples);
  loadOthers(others);
  byId("example").value = "0";
  load(examples[0].question);
  // (it puts the address's question in place of the example's, if there is one, and asks)
  restore();
}

for (const name of PANELS) {
  byId(`tab-${name}`).addEventListener("click", () => choose(name));
  byId(`tab-${name}`).addEventListener("keydown", moveTab);
}
for (const name of ["at", "strict"]) {
  byId(name).addEventListener("input", () => changed());
}
byId("now").addEventListener("click", () => {
  byId("at").value = inputValueOf(Math.floor(Date.now() / 1000));
  changed();
});
byId("link").addEventListener("click", copyLink);
byId("edit").addEventListener("click", editCase);
byId("text-card").addEventListener("toggle", () => changed());
addEventListener("hashchange", restore);
start().catch(() => answer.show({ notice: "The server does not answer. Start it again, and open the address that it prints." }));
