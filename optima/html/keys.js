"use strict";
// The keyboard in the tables: a blank sorts as the return key does, and the rows are one stop, in which arrows walk.
const stops = new Map();

addEventListener("keydown", (event) => {
  if (event.key !== " " || !event.target.matches("th[aria-controls]")) return;
  event.preventDefault();
  $(event.target).trigger($.Event("keypress", {which: 13}));
});

const linksOf = (name) => [...field(`${name}-table`).tBodies[0].querySelectorAll("a")];

/** Has the keyboard stop at one of several elements alone. */
const stopIn = (elements, stop) => elements.forEach((it) => { it.tabIndex = it === stop ? 0 : -1; });

/** Has the keyboard stop at one link of a table alone: at the one where it was, or at the first. */
function stopAt(name, wished = stops.get(name)) {
  const links = linksOf(name), stop = links.includes(wished) ? wished : links[0];
  stopIn(links, stop);
  stops.set(name, stop);
}

/** Walks to another of several elements. */
function walkIn(elements, event, [next, before]) {
  const at = elements.indexOf(event.target), places = {[next]: at + 1, [before]: at - 1, Home: 0, End: elements.length - 1};
  if (at < 0 || !(event.key in places)) return;
  event.preventDefault();
  (elements[places[event.key]] || event.target).focus();
}

for (const name of ["league", "functions"]) {
  const body = field(`${name}-table`).tBodies[0];
  body.addEventListener("keydown", (event) => walkIn(linksOf(name), event, ["ArrowDown", "ArrowUp"]));
  body.addEventListener("focusin", (event) => { if (event.target.matches("a")) stopAt(name, event.target); });
  tables[name].on("draw.dt", () => stopAt(name));
  stopAt(name);
}
