// Makes elements of SVG and HTML. Texts only ever become text nodes and attributes, never markup.

const SVG = "http://www.w3.org/2000/svg";
const LONGEST_MEASURED = 1000;

/** An SVG element with these attributes and children; a string is a text node. */
export function svg(tag, attributes = {}, ...children) {
  return filled(document.createElementNS(SVG, tag), attributes, children);
}

/** An HTML element with these attributes and children; a string is a text node. */
export function html(tag, attributes = {}, ...children) {
  return filled(document.createElement(tag), attributes, children);
}

function filled(element, attributes, children) {
  for (const name in attributes) {
    const value = attributes[name];
    if (value === false || value === null || value === undefined) continue;
    if (typeof value === "function") element.addEventListener(name, value);
    else element.setAttribute(name, value === true ? "" : value);
  }
  appendAll(element, children);
  return element;
}

/** Appends children, some of them perhaps in lists; null and undefined are none. */
function appendAll(element, children) {
  for (const child of children) {
    if (Array.isArray(child)) appendAll(element, child);
    else if (child !== null && child !== undefined) element.append(child);
  }
}

/** Gives an element these children; those that are in their place already are not touched. */
export function setChildren(element, children) {
  let next = element.firstElementChild;
  for (const child of children) {
    if (child === next) next = next.nextElementSibling;
    else element.insertBefore(child, next);
  }
  while (next) {
    const old = next;
    next = next.nextElementSibling;
    old.remove();
  }
}

let canvas = null;
let style = "";

/** The width of a text in pixels, in the chart's font; of a long one, that of its beginning. */
export function textWidth(text, size, isBold = false) {
  canvas ??= document.createElement("canvas").getContext("2d");
  const wanted = isBold ? `bold ${size}` : String(size);
  if (wanted !== style) {
    style = wanted;
    canvas.font = `${wanted}px system-ui, "DejaVu Sans", sans-serif`;
  }
  return canvas.measureText(text.slice(0, LONGEST_MEASURED)).width;
}

/**
 * A text cut in the middle so that it has room, since names often begin alike: "Ord…0017"; "" where
 * nothing has.
 */
export function fitted(text, size, room) {
  if (textWidth(text, size) <= room) return text;
  const letters = [...text.slice(0, LONGEST_MEASURED)];
  let low = 0;
  let high = Math.min(letters.length, 200);
  while (low < high) {
    const middle = Math.ceil((low + high) / 2);
    if (textWidth(cut(letters, middle), size) <= room) low = middle;
    else high = middle - 1;
  }
  return low >= 2 ? cut(letters, low) : "";
}

/** So many of the letters, from the beginning and the end. */
function cut(letters, count) {
  const first = Math.ceil(count * 0.6);
  const last = count - first;
  return `${letters.slice(0, first).join("").trimEnd()}…`
    + (last > 0 ? letters.slice(-last).join("").trimStart() : "");
}
