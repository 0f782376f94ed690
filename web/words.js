// What the faults that the library and the program name mean, in a sentence each.
const DOMAIN = {
  BadToken: "Nothing that a time domain is made of begins here.",
  Fuzzy: "A fuzzy time of GDF (a z) is not read.",
  TooDeep: "With this bracket more than 128 are open.",
  TooMany: "This is one basic domain more than 128.",
  Repeated: "This field stands there already, in the same brackets.",
  FieldRange: "This field is out of its range, or has the wrong number of digits.",
  Negative: "A duration is never negative.",
  Unexpected: "This cannot stand here.",
  Incomplete: "The text ends too early: more is needed here.",
  TooLongDuration: "This duration is longer than 36,600 days.",
};
const HOURS = {
  BadToken: "Nothing that opening hours are made of begins here.",
  Unsupported: "This part of opening hours is not read.",
  Range: "This number or time is out of its range, or has the wrong number of digits.",
  Unexpected: "This cannot stand here.",
  Incomplete: "The text ends too early: more is needed here.",
  TooMany: "These hours take more than 128 basic domains.",
};
const FILE = {
  TooLarge: "The file has more than 16,777,216 bytes.",
  Header: "The first line is no header of a record file.",
  TooManyRows: "The file has more than 65,536 rows.",
  FieldCount: "A row has not four fields.",
  Element: "A first field is no number of an element.",
  Direction: "A second field is no direction: both, positive or negative.",
  Vehicle: "A third field names no vehicle types.",
  Domain: "A fourth field is no time domain.",
};
export const MEANINGS = { domain: DOMAIN, hours: HOURS, file: FILE };
export const OUT_OF_MEMORY = "The browser gives no more memory.";

const UTF8 = new TextEncoder();

/** An element of the page with these children. */
export function make(name, properties = {}, ...children) {
  const element = Object.assign(document.createElement(name), properties);
  element.append(...children);
  return element;
}

/** A text with the token marked that begins after so many bytes: a letter with its digits, or one character; or the end. */
export function marked(text, place) {
  let before = 0, bytes = 0;
  for (const character of text) {
    if (bytes >= place) break;
    bytes += UTF8.encode(character).length;
    before += character.length;
  }
  const [token] = /^(?:[a-z]\d*|.)?/iu.exec(text.slice(before));
  return make("pre", {}, text.slice(0, before), make("mark", {}, token || " "), text.slice(before + token.length));
}
