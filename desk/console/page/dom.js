// Elements of the page, made in a word.

const SVG = "http://www.w3.org/2000/svg";

function filled(element, parts, children) {
  for (const [name, value] of Object.entries(parts)) {
    if (name.startsWith("on")) element.addEventListener(name.slice(2), value);
    else if (value !== null && value !== undefined && value !== false) element.setAttribute(name, value === true ? "" : value);
  }
  element.append(...children.filter(child => child !== null && child !== undefined));
  return element;
}

export const make = (tag, parts = {}, ...children) => filled(document.createElement(tag), parts, children);
export const draw = (tag, parts = {}, ...children) => filled(document.createElementNS(SVG, tag), parts, children);
export const at = id => document.getElementById(id);

// A button that says what it does.
export const button = (label, does, parts = {}) => make("button", { type: "button", onclick: does, ...parts }, label);

// A table: its caption, its headings and its rows, each a list of cells; a row that is an object has a class and cells.
export function grid(caption, headings, rows, none) {
  if (!rows.length) return make("p", { class: "none" }, none);
  const cell = (content, i) => make(i ? "td" : "th", i ? {} : { scope: "row" }, ...[content].flat());
  const lines = rows.map(row => make("tr", { class: row.look }, ...row.cells.map(cell)));
  return make("table", {}, make("caption", {}, caption), make("thead", {}, make("tr", {}, ...headings.map(one => make("th", { scope: "col" }, one)))),
    make("tbody", {}, ...lines));
}
