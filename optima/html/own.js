"use strict";
// The reader's own methods: made of files of results, named, taken off, and kept by the browser.
const STORE = "minorder optima: methods";
const CAPPED = "a late or missing one counts as the worst ratio that the league or the start has there, and none as more than that";
const STARTS = [["file", "the file's order"], ["randomStarts", "random orders"]];

/** The lower median, where null counts as more than any number; null if half of them or more are. */
function medianOf(nodes) {
  const ended = nodes.filter((it) => it !== null).sort((a, b) => a - b);
  return 2 * ended.length > nodes.length ? ended[Math.floor((nodes.length - 1) / 2)] : null;
}

/** What counts of each random order that has a run: of a numbered one the median of its runs. */
function countsOfOrders(its) {
  const numbered = new Map();
  for (const {label, nodes} of its) numbered.set(label, [...(numbered.get(label) || []), nodes]);
  const others = numbered.get("random") || [];
  numbered.delete("random");
  return [...[...numbered.values()].map(medianOf), ...others];
}

/** What the runs of a function count. Of random orders each counts once, and one without a run as a late run. */
function countsFrom(its, start) {
  if (start === "file") return its.map((it) => it.nodes);
  const counts = countsOfOrders(its);
  return [...counts, ...Array(Math.max(0, RANDOM_ORDERS - counts.length)).fill(null)];
}

/** The sizes of a function's runs. */
function sizesOf(its, start) {
  const counts = countsFrom(its, start), howMany = (size) => counts.filter((it) => it === size).length;
  const ended = its.filter((it) => it.nodes !== null), known = ended.map((it) => it.seconds).filter((it) => it !== null);
  return [
    medianOf(counts), d3.max(ended, (it) => it.nodes) ?? null, howMany(null), counts.length,
    howMany(byName.get(its[0].name).optimum), known.length ? sumOf(known) / known.length : undefined];
}

/** Whether a function has several runs from the file's order or of one random order, or more than ten random orders. */
function hasSeveral(its, start) {
  const numbered = its.map(({label}) => label).filter((it) => it !== "random");
  return its.length > (start === "file" ? 1 : RANDOM_ORDERS) || numbered.length > new Set(numbered).size;
}

/** A method of results. What the league hasn't from a start is left out; a size that nobody counted is claimed. */
function methodOf(name, results) {
  const method = {package: "", name, random: false, curve: true, yours: true, text: textOf(results)};
  Object.assign(method, {leftOut: {}, several: {}, few: {}, claimed: {}});
  for (const [start] of STARTS) {
    const here = results.filter((it) => it.start === start), runs = new Map(here.map((it) => [it.name, []]));
    for (const it of here) runs.get(it.name).push(it);
    const inside = [...runs].filter(([of]) => of in page.worst[start]);
    method[start] = Object.fromEntries(inside.map(([of, its]) => [of, sizesOf(its, start)]));
    method.leftOut[start] = [...runs.keys()].filter((of) => !(of in page.worst[start]));
    const namesWhere = (isWished) => inside.filter(([of, its]) => isWished(its, method[start][of])).map(([of]) => of);
    method.several[start] = namesWhere((its) => hasSeveral(its, start));
    method.few[start] = start === "file" ? [] : namesWhere((its) => countsOfOrders(its).length < RANDOM_ORDERS);
    method.claimed[start] = new Set(namesWhere((its, sizes) => sizes[COUNTED] !== null && its.some((it) => it.isClaimed)));
  }
  return method;
}

/** A method's place among those of the league, by the mean over all functions. */
function placeOf(method, start) {
  const {mean} = standing(method, start), others = page.methods.filter((it) => !it.yours);
  return `${1 + others.filter((it) => standing(it, start).mean < mean * (1 - SAME)).length} of ${1 + others.length}`;
}

/** A line on some functions of a method; none if there are none. */
function lineOn(method, what, names, why) {
  const said = names.slice(0, MOST_FAULTS).join(" ") + (names.length > MOST_FAULTS ? " .." : "");
  return names.length ? `\n${method.name}, ${what}, ${names.length}: ${said}: ${why}.` : "";
}

/** What of a method's results doesn't count, or counts otherwise than a run each. */
function notesOn(method, start, from) {
  const {leftOut, few, several} = method;
  const counting = start === "file" ? "a function's runs counts, and in the runs that met the optimum their share"
    : "a numbered order's runs counts, and each run without a number";
  return [
    lineOn(method, "left out", leftOut[start], `the league has ${from} for functions of up to ${page.mostInputs} inputs alone`),
    lineOn(method, "with fewer than ten random orders", few[start], "each that is missing counts as a late run"),
    lineOn(method, "with several runs", several[start], `the lower median of ${counting}`),
  ].join("");
}

const countOf = (count, what) => `${count} ${what}${count === 1 ? "" : "s"}`;

/** What is said beside the name of a method with claims. */
const saidOfClaims = (count) => `${countOf(count, "size")} claimed: nobody counted ${count === 1 ? "it" : "them"}`;

function wordsFrom(method, start, from) {
  const it = standing(method, start), notes = notesOn(method, start, from);
  if (!it.has) return notes.trim();
  const isWhole = it.ended === it.whole, claims = claimsOf(method, [start]), place = placeOf(method, start);
  const isPlain = isWhole && it.mean.toFixed(6) === it.meanOfEnded.toFixed(6);
  return [
    method.name, claims ? ` (${saidOfClaims(claims)})` : "",
    `, from ${from}: place ${place}, by the mean ratio ${it.mean.toFixed(3)} on all ${it.whole} functions`,
    isPlain ? "" : ` (${CAPPED})`,
    isPlain || !it.ended ? "" : `; of what ended ${it.meanOfEnded.toFixed(3)} on ${countOf(it.ended, "function")}`,
    isWhole ? "" : `; ${it.late} late, ${it.missing} missing`,
    it.worst ? `; worst ratio ${it.worst.ratio.toFixed(2)} (${it.worst.name})${isWhole ? "" : ", of the runs that ended"}` : "",
    `; optimum met in ${it.met} of ${it.whole} functions, and by ${percentOf(it.runsMet)} of the runs`,
    it.lateRuns ? `; ${countOf(it.lateRuns, "run")} late` : "",
    ".", notes].join("");
}

const wordsOf = (method) => STARTS.map(([start, from]) => wordsFrom(method, start, from)).filter(Boolean).join("\n");

// ---- names

const tidied = (name) => name.replace(/\s+/g, " ").replace(/\p{C}/gu, "").trim().slice(0, MOST_LETTERS);
const plain = (name) => name.normalize("NFKC").toLowerCase();

/** A wished name, with a number behind it if another method has it. */
function freeName(wish, mine = null) {
  const others = new Set(page.methods.filter((it) => it !== mine).map((it) => plain(labelOf(it))));
  let name = wish;
  for (let k = 2; others.has(plain(name)); k += 1) name = `${wish} ${k}`;
  return name;
}

/** Names a method as is wished, if the name is free. */
function rename(method, wish) {
  const wanted = tidied(wish) || method.name, before = method.name;
  method.name = freeName(wanted, method);
  const unkept = keep();
  showOwn();
  const why = method.name === wanted ? "" : ` Another method is named ${wanted}.`;
  say(`${before} is named ${method.name} now.${why}${unkept}`);
}

function takeOff(method) {
  page.methods = page.methods.filter((it) => it !== method);
  const unkept = keep();
  showOwn();
  listOwn();
  (field("own").querySelector("button") || chooser).focus();
  say(`${method.name} is taken off.${unkept}`);
}

// ---- the browser

/** Keeps the methods in this browser; answers what is to be said if it doesn't. */
function keep() {
  try {
    localStorage.setItem(STORE, JSON.stringify(own().map(({name, text}) => ({name, text}))));
    return "";
  } catch {
    return " This browser doesn't keep it beyond this page's end.";
  }
}

/** The names and texts of the methods that this browser kept. */
function kept() {
  try {
    const found = JSON.parse(localStorage.getItem(STORE) || "[]");
    return found.map(({name, text}) => ({name: tidied(String(name)), text: String(text)}));
  } catch {
    return [];
  }
}

/** Shows the methods that this browser kept, and says which it refuses. */
function showKept() {
  const refused = [];
  page.methods = page.methods.filter((it) => !it.yours);
  for (const {name, text} of kept()) {
    const {results, faults} = read(text, true);
    if (faults.length) refused.push(refusal(`${name}, which this browser kept,`, faults).text);
    else page.methods.push(methodOf(freeName(name), results));
  }
  shownMethod.method = page.methods.find((it) => labelOf(it) === labelOf(shownMethod.method));
  showOwn();
  listOwn();
  if (refused.length) say(refused.join("\n"), {isFault: true});
}

// ---- files

/** What is said of a method's runs whose own nodes aren't those that are counted. */
function differencesOf({name}, results) {
  const others = results.filter((it) => it.own !== null && it.own !== it.nodes), [first] = others;
  const said = `${name}, another own size, ${countOf(others.length, "run")}`;
  return others.length ? `\n${said}, as ${first.name}, ${first.own} in place of ${first.nodes}.` : "";
}

/** Takes a file's text; answers what is to be said of it. */
async function taken(name, text) {
  const {results, faults} = read(text);
  if (!canCount() && results.some((it) => it.order))
    faults.push("this browser can't count orders, for want of DecompressionStream; minorder-score does");
  if (faults.length) return refusal(shortened(name), faults);
  await countResults(results);
  const same = own().find((it) => it.text === textOf(results));
  if (same) return {text: `${shortened(name)} has the results of ${same.name}, which stands here already.`, isFault: false};
  const method = methodOf(freeName(tidied(name.replace(/\.[^.]*$/, "")) || "mine"), results);
  page.methods.push(method);
  shownMethod.method = method;
  tables.league.order(orderBy("league", [standing(method, "file").has ? "mean" : "random"]));
  const said = keep();
  showOwn();
  listOwn();
  return {text: wordsOf(method) + differencesOf(method, results) + said, isFault: false};
}

/** A text of bytes in UTF-8; null if they are none. */
function textIn(bytes) {
  try {
    return new TextDecoder("utf-8", {fatal: true}).decode(bytes);
  } catch {
    return null;
  }
}

async function takenFile(file) {
  if (file.size > MOST_BYTES) return refusal(shortened(file.name), [`it is larger than ${MOST_BYTES / 1e6} MB`]);
  const bytes = await file.arrayBuffer().catch(() => null), text = textIn(bytes);
  if (text === null) return refusal(shortened(file.name), [bytes === null ? "it can't be read" : "it is no text (UTF-8)"]);
  return taken(file.name, text);
}

async function takeAll(files) {
  const found = [];
  for (const file of files) found.push(await takenFile(file));
  if (found.length) say(found.map((it) => it.text).join("\n"), {isFault: found.some((it) => it.isFault)});
}

// files that come meanwhile wait
let taking = Promise.resolve();
function takeFiles(files) {
  const take = () => takeAll(files);
  taking = taking.then(take, take);
}

const chooser = field("file");
// so that the same file may be chosen again
chooser.addEventListener("click", () => { chooser.value = ""; });
chooser.addEventListener("change", () => takeFiles([...chooser.files]));
for (const kind of ["dragover", "dragleave", "drop"])
  addEventListener(kind, (event) => {
    if (!event.dataTransfer.types.includes("Files")) return;
    event.preventDefault();
    document.body.classList.toggle("over", kind === "dragover");
    if (kind === "drop") takeFiles([...event.dataTransfer.files]);
  });
// another window of this browser has other methods now
addEventListener("storage", (event) => { if (event.key === STORE || event.key === null) showKept(); });
if (kept().length) showKept();
