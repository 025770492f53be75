// A link that holds the whole question in its fragment, which a browser never sends.

/** The address of this page with a state, which is an object, in its fragment: as JSON in base64, by the alphabet for addresses, without padding. */
export function linkTo(state) {
  const octets = new TextEncoder().encode(JSON.stringify(state));
  // (`btoa` takes a string whose characters are the octets)
  const letters = btoa(Array.from(octets, (octet) => String.fromCharCode(octet)).join(""));
  return `${location.origin}${location.pathname}#q=${letters.replaceAll("+", "-").replaceAll("/", "_").replaceAll("=", "")}`;
}

/** The state in the fragment of this page's address, or null if it has none, as behind the link to the answer. Throws an error if what it has cannot
  * be read, or has no question: it was cut off, or changed on its way. */
export function stateInFragment() {
  if (["", "#answer"].includes(location.hash)) {
    return null;
  }
  const [, encoded] = /^#q=([\w-]+)$/.exec(location.hash);
  const letters = atob(encoded.replaceAll("-", "+").replaceAll("_", "/"));
  const octets = Uint8Array.from(letters, (letter) => letter.charCodeAt(0));
  const state = JSON.parse(new TextDecoder("utf-8", { fatal: true }).decode(octets));
  const isList = (list, isMember) => Array.isArray(list) && list.every(isMember), isText = (value) => typeof value === "string";
  if (!isList(["acl", "sequence", "key", "labels", "at"].map((name) => state[name]), isText) || !isList(state.request, isText)
    || !isList(state.refused, Number.isSafeInteger)) {
    throw new TypeError("no question");
  }
  return state;
}
