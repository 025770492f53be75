// The picture of a chain: boxes from above, and arrows with what they give beside them. A step of a chain is one of these, as chain.py makes it.
import { htmlElement, svgElement } from "./dom.js";

// In pixels: the room above and below an arrow's text, the height of a line, the margin in a box, and where the shaft of an arrow and the text beside
// it are, from the left. Numbers that are added to these are pixels too, chosen by eye.
const GAP = 10, LINE = 17, PAD = 10, SHAFT = 22, BESIDE = 42;
// The most lines of a text beside an arrow, of one that says why the chain stops, and of the label of a box; and the letters of any text. What is
// more ends in dots.
const MOST_LINES = 3, MOST_LINES_OF_STOP = 40, MOST_LINES_OF_LABEL = 12, MOST_LETTERS = 1200;
// The fonts of a box's name, of other text, of S-expressions, and of the line that says why a chain ends or stops.
const FONTS = { name: "600 13px", plain: "13px", mono: "12px", why: "650 13px" };
const measuring = document.createElement("canvas").getContext("2d");

/** Returns an element of SVG with the steps of a chain, as `chain.py` makes them, for a width in pixels. A screen reader reads out `summary` in place
 * of the picture. */
export function picture(chain, width, summary) {
  const svg = svgElement("svg", { width, role: "img", "aria-label": summary });
  let y = 1;
  for (const step of chain.steps) {
    const part = step.kind === "box" ? box(step, width) : arrow(step, width);
    part.element.setAttribute("transform", `translate(0 ${y})`);
    svg.append(part.element);
    y += part.height;
  }
  if (chain.behind) {
    const count = chain.behind === 1 ? "1 certificate" : `${chain.behind} certificates`;
    svg.append(svgElement("text", { x: 0, y: y + LINE + 2, class: "quiet" }, `${count} behind this one: not looked at`));
    y += LINE + 8;
  }
  svg.setAttribute("height", y + 2);
  svg.setAttribute("viewBox", `0 0 ${width} ${y + 2}`);
  return svg;
}

/** The steps of a chain in words, as lines of a list. */
export function stepsInWords(chain) {
  return chain.steps.map((step) => {
    const says = step.kind === "box" ? [step.label, step.note].filter(Boolean).join(", ") : step.lines.join(", ");
    return htmlElement("li", {}, says, step.whole && step.whole !== says ? htmlElement("code", {}, step.whole) : "");
  });
}

/** The box of a step as `element`, and its `height` in pixels. It is as wide as its texts need, at most `width` pixels. */
function box(step, width) {
  // (the numbers beside the names are pixels, chosen by eye: letters touch no frame, and a box is at least 92 wide)
  const kind = step.shape === "request" ? "mono" : "name";
  const lines = wrap(step.label, width - 2 * PAD - 2, kind, MOST_LINES_OF_LABEL);
  const notes = step.note ? [step.note] : step.shape === "list" ? [step.whole] : [];
  const widest = Math.max(...lines.map((line) => measure(line, kind)), ...notes.map((note) => measure(note, "plain")));
  const height = (lines.length + notes.length) * LINE + 2 * PAD - 4;
  const frameWidth = Math.min(width - 2, Math.max(widest + 2 * PAD + 8, 92));
  const group = svgElement("g", { class: `${step.shape} ${step.state}` }, title(step.whole),
    svgElement("rect", { class: "frame", x: 1, y: 0, rx: step.shape === "subject" ? 17 : 7, width: frameWidth, height }));
  lines.forEach((text, place) => group.append(svgElement("text", { x: PAD + 5, y: PAD + 10 + place * LINE, class: kind }, text)));
  notes.forEach((text, place) => group.append(svgElement("text", { x: PAD + 5, y: PAD + 10 + (lines.length + place) * LINE, class: "quiet" }, text)));
  return { element: group, height };
}

/** The arrow of a step with its lines as `element`, and its `height` in pixels. Where the chain does not join, it is a gap with a cross and without a
 * head. One in the state `bad` has a cross too. */
function arrow(step, width) {
  // (a state other than these two ends the chain: then the first line says why, and whole texts are shown)
  const stops = step.state !== "plain" && step.state !== "faint";
  const group = svgElement("g", { class: step.state }, title(step.whole));
  let lines = 0;
  step.lines.forEach((text, place) => {
    // (a tag, which begins as an S-expression, perhaps behind `left: `)
    const isTag = /^(left( before)?: )?[([{|#"]/.test(text);
    const kind = place === 0 && stops ? "why" : isTag ? "mono" : "plain";
    for (const piece of wrap(text, width - BESIDE - 4, kind, stops ? MOST_LINES_OF_STOP : MOST_LINES)) {
      const quiet = kind === "plain" ? "quiet" : "";
      group.append(svgElement("text", { x: BESIDE, y: GAP + 11 + lines * LINE, class: `${kind} ${quiet}` }, piece));
      lines += 1;
    }
  });
  const height = Math.max(lines, 1) * LINE + 2 * GAP;
  group.prepend(svgElement("path", { class: "shaft", d: `M${SHAFT} 2V${height - (step.state === "gap" ? 2 : 8)}` }));
  if (step.state === "gap" || step.state === "bad") {
    const middle = height / 2 - 2;
    group.append(svgElement("path", { class: "cross", d: `M${SHAFT - 5} ${middle - 5}l10 10m0-10l-10 10` }));
  }
  if (step.state !== "gap") {
    group.append(svgElement("path", { class: "head", d: `M${SHAFT - 5} ${height - 9}h10l-5 8z` }));
  }
  return { element: group, height };
}

/** The element `title` of SVG, whose text is shown while the pointer is over its parent. An empty string for an empty text. */
const title = (text) => (text ? svgElement("title", {}, text) : "");

/** The width of a text in pixels, in the font of FONTS that is called `kind`. */
function measure(text, kind) {
  const family = getComputedStyle(document.documentElement).getPropertyValue(kind === "mono" ? "--mono" : "--sans");
  measuring.font = `${FONTS[kind]} ${family}`;
  return measuring.measureText(text).width;
}

/** A text as an array of at most `most` lines of `width` pixels. `kind` is a font of FONTS. A line breaks at a space or behind a slash, if
 * one is in the second half of what fits, else anywhere. What is too long ends in dots. */
function wrap(text, width, kind, most) {
  const lines = [];
  let rest = text.slice(0, MOST_LETTERS);
  while (rest && lines.length < most) {
    const end = lettersThatFit(rest, width, kind);
    lines.push(rest.slice(0, end).trimEnd());
    rest = rest.slice(end).trimStart();
  }
  if (rest || text.length > MOST_LETTERS) {
    lines[lines.length - 1] = `${lines[lines.length - 1].slice(0, -2)}..`;
  }
  return lines.length ? lines : [""];
}

/** How many letters of a text fit a width in pixels, at least one: up to a space or a slash, if there is one in the second half of what fits. */
function lettersThatFit(text, width, kind) {
  if (measure(text, kind) <= width) {
    return text.length;
  }
  // (`low` letters fit, or are one, and `high` do not)
  let low = 1, high = text.length;
  while (low + 1 < high) {
    const middle = (low + high) >> 1;
    [low, high] = measure(text.slice(0, middle), kind) <= width ? [middle, high] : [low, middle];
  }
  const ends = [text.lastIndexOf(" ", low), text.lastIndexOf("/", low - 1) + 1];
  return ends.find((end) => end > low / 2) ?? low;
}
