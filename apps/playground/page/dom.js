// Text reaches the page as text only: by textContent, or as an attribute that is no script and no address.

const SVG = "http://www.w3.org/2000/svg";

/** An element of HTML with attributes and contents, which are elements or strings. */
export function htmlElement(name, attributes = {}, ...contents) {
  return fill(document.createElement(name), attributes, contents);
}

/** An element of SVG with attributes and contents, which are elements or strings. */
export function svgElement(name, attributes = {}, ...contents) {
  return fill(document.createElementNS(SVG, name), attributes, contents);
}

/** Gives an element attributes, and those contents that are not empty. Returns it. */
function fill(element, attributes, contents) {
  for (const [name, value] of Object.entries(attributes)) {
    element.setAttribute(name, value);
  }
  element.append(...contents.filter((content) => content !== null && content !== undefined && content !== ""));
  return element;
}

/** The element of the page with an id. */
export const byId = (id) => document.getElementById(id);

/** Sets the text of an element, unless it has this text already: a screen reader would read it out again. */
export function setText(element, text) {
  if (element.textContent !== text) {
    element.textContent = text;
  }
}
