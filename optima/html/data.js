"use strict";
// What the page shows, and how far a method is from the optima. A method's sizes are by start and function:
// [counted nodes or null, most nodes or null, late runs, runs, runs that met the optimum, seconds where they are known].
// Counted is the lower median of all runs, where a run without an order counts as more than any other; null if half are such.
const page = JSON.parse(document.getElementById("data").textContent);
const COUNTED = 0, MOST = 1, LATE = 2, RUNS = 3, MET = 4, SECONDS = 5;
const byName = new Map();
for (const it of page.functions) byName.set(it.name, it);
// of one run the table has its nodes alone
for (const method of page.methods) for (const start of page.starts)
  for (const [name, sizes] of Object.entries(method[start]))
    if (typeof sizes === "number") method[start][name] = [sizes, sizes, 0, 1, Number(sizes === byName.get(name).optimum)];
for (const it of page.functions) for (const alias of it.aliases) if (!byName.has(alias)) byName.set(alias, it);

/** The function of a name, its own or one of the field's, in large or small letters. */
const functionNamed = (name) => byName.get(name) || byName.get(name.toLowerCase());
const labelOf = (method) => [method.package, method.name].join(" ").trim();
const own = () => page.methods.filter((it) => it.yours);
/** How many sizes of a method are only claimed, from one start or from all. */
const claimsOf = (method, starts = page.starts) => sumOf(starts.map((start) => method.yours ? method.claimed[start].size : 0));
const markOf = (method) => claimsOf(method) ? " (claimed)" : "";
/** A method's name as it is shown; that sizes are only claimed stands behind it. */
const saidOf = (method) => labelOf(method) + markOf(method);
const MOST_LETTERS = 40, RANDOM_ORDERS = 10;
// means that differ by less are equal
const SAME = 1e-9;
const ratioOf = (nodes, name) => nodes / byName.get(name).optimum;
/** The geometric mean; null of none. */
const meanOf = (ratios) =>
  ratios.length ? Math.exp(ratios.reduce((total, ratio) => total + Math.log(ratio), 0) / ratios.length) : null;
const sumOf = (numbers) => numbers.reduce((total, it) => total + it, 0);
const percentOf = (share) => `${(100 * share).toFixed(0)} %`;

/** What a method makes of all functions that the league has from a start, or of those that are named. By the mean methods have
    their places: no function counts more than the worst nodes there, and one that is late, missing or without an order counts
    as these. Of the runs that met the optimum it has the share, each function counting alike. */
function standing(method, start, names = null) {
  const wished = Object.entries(page.worst[start]).filter(([name]) => !names || names.has(name)), rows = method[start];
  const lines = wished.filter(([name]) => name in rows).map(([name]) => [name, rows[name]]);
  const ended = lines.filter(([, sizes]) => sizes[COUNTED] !== null), shares = lines.map(([, sizes]) => sizes[MET] / sizes[RUNS]);
  const known = ended.map(([, sizes]) => sizes[SECONDS]).filter((it) => it !== undefined);
  const ratios = ended.map(([name, sizes]) => ratioOf(sizes[COUNTED], name));
  const capped = wished.map(([name, most]) => ratioOf(Math.min(rows[name]?.[COUNTED] ?? most, most), name));
  let worst = null;
  for (const [name, sizes] of lines) {
    const ratio = sizes[MOST] === null ? 0 : ratioOf(sizes[MOST], name);
    if (ratio > (worst ? worst.ratio : 0)) worst = {name, ratio};
  }
  return {
    has: lines.length > 0, whole: wished.length, ended: ended.length, missing: wished.length - lines.length, worst,
    late: lines.filter(([, sizes]) => sizes[LATE] > 0 && sizes[COUNTED] === null).length,
    ratios: ratios.sort((a, b) => a - b), met: ratios.filter((ratio) => ratio === 1).length,
    mean: meanOf(capped), meanOfEnded: meanOf(ratios),
    lateRuns: sumOf(lines.map(([, sizes]) => sizes[LATE])), runsMet: shares.length ? sumOf(shares) / shares.length : null,
    seconds: known.length ? sumOf(known) : null,
  };
}

/** An element with attributes and children; texts become text nodes. */
function element(tag, attributes = {}, ...children) {
  const made = document.createElement(tag);
  for (const [name, value] of Object.entries(attributes)) made.setAttribute(name, value);
  made.append(...children.filter((child) => child !== null));
  return made;
}

document.body.classList.add("scripts");
