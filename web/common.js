// What both pages use: elements of the page, and numbers of a text.

const NUMBER = /^(?:0|[1-9][0-9]*)$/;
const SVG = "http://www.w3.org/2000/svg";

/** The greatest number of a text. */
export const GREATEST = 2n ** 64n - 1n;

/** Whether a field is a number with no sign and no zero in front, and at most so large. */
export function isNumber(field, most = GREATEST) {
  return NUMBER.test(field ?? "") && BigInt(field) <= most;
}

/** The element of the page with this name. */
export function find(id) {
  return document.getElementById(id);
}

/** Gives an element these attributes. */
export function setAll(element, values) {
  Object.entries(values).forEach(([name, it]) => element.setAttribute(name, it));
  return element;
}

/** Adds an element of a drawing. */
export function addDrawn(parent, name, values) {
  return setAll(parent.appendChild(document.createElementNS(SVG, name)), values);
}
