// Whether a text has a private key. One must not leave its box: neither for the server nor into a link.

// How a private key begins: in PEM, of PuTTY, of age, of WireGuard, and in base64 one of OpenSSH and one in DER, which is a list of 0 or 1 and more.
const BEGINS = new RegExp("BEGIN [A-Z0-9 ]*PRIVATE KEY|PuTTY-User-Key-File|AGE-SECRET-KEY-|PrivateKey\\s*=|b3BlbnNzaC1rZXktdjE"
  + "|(?<![A-Za-z0-9+/])M(?:[A-H].CAQ[AE]|I[E-H].AgE[AB]|II.{3}IBA)");
// How an S-expression of one begins, whose strings are decoded: `(private-key (`, also with a length, a display hint, or another word before.
const LIST = /\(\s{0,99}(?:\[[^\]]{0,99}\]\s{0,99})?[\d:"]{0,9}[\w-]{0,20}private-key["\s]{0,99}\(/i;
const BASE64 = /[|{]([A-Za-z0-9+/=\s]*)[|}]/g, HEXADECIMAL = /#([0-9A-Fa-f\s]*)#/g, ESCAPE = /\\(?:x([0-9A-Fa-f]{2})|([0-3][0-7]{2})|[\r\n]{1,2})/g;

/** The octets of a text in base64, as characters. Padding may be missing. What is left of a cut one is left out. */
function ofBase64(text) {
  const letters = text.replace(/[\s=]/g, "");
  return atob(letters.length % 4 === 1 ? letters.slice(0, -1) : letters);
}

/** The octets of a text in hexadecimal, as characters. */
const ofHexadecimal = (text) => text.replace(/\s/g, "").replace(/../g, (digits) => String.fromCharCode(parseInt(digits, 16)));

/** Whether a text has a private key, in one of the forms of BEGINS, as a JWK, or as an S-expression in any form. */
export function hasPrivateKey(text) {
  const decoded = text.replace(BASE64, (_, letters) => ofBase64(letters)).replace(HEXADECIMAL, (_, digits) => ofHexadecimal(digits))
    .replace(ESCAPE, (_, digits, octal) => (digits || octal ? String.fromCharCode(parseInt(digits ?? octal, digits ? 16 : 8)) : ""));
  return BEGINS.test(text) || LIST.test(decoded) || (text.includes('"kty"') && /"d"\s*:/.test(text));
}
