"use strict";
// The address: a function, or a part of the page and behind a question mark what is filtered, sorted and drawn there.
const PARTS = new Set([...overview.querySelectorAll("section, figure")].map((it) => it.id));
const WAIT = 400;
const title = document.title;
let height = 0, timer = 0, noted = "";

const same = (some, others) => some.join("\n") === others.join("\n");
const without = (texts, known) => texts.filter((it) => it && !known.includes(it));

function rangeState(what) {
  const least = field(`${what}-least`), most = field(`${what}-most`);
  return {
    read: () => least.value || most.value ? [`${least.value}-${most.value}`] : [],
    write([range = "-"]) {
      const found = range.match(/^(\d*)-(\d*)$/) || ["", "", ""];
      [least.value, most.value] = found.slice(1);
      return found[0] ? [] : [range];
    },
  };
}

const sortState = (name) => ({
  read: () => same(sortOf(name), FIRST_SORT[name]) ? [] : sortOf(name),
  write(columns) {
    tables[name].order(orderBy(name, columns)).draw();
    return without(columns, sortOf(name));
  },
});

const methodState = {
  read: () => shownMethod.method === firstMethod ? [] : [labelOf(shownMethod.method)],
  write([label = labelOf(firstMethod)]) {
    const labels = page.methods.map(labelOf);
    showMethod(labels.includes(label) ? label : labelOf(firstMethod));
    return without([label], labels);
  },
};

const labelsOf = (isWished) => league.lines.filter(isWished).map((line) => line.label);
const curvesState = {
  read: () => same(labelsOf((line) => line.on), labelsOf((line) => line.first)) ? [] : labelsOf((line) => line.on),
  write(labels) {
    turnOn((line) => labels.length ? labels.includes(line.label) : line.first);
    return without(labels, labelsOf(() => true));
  },
};

/** What a field has, as the address says it. */
const fieldState = (id) => ({
  read: () => field(id).value ? [field(id).value] : [],
  write([text = ""]) {
    field(id).value = text;
    return without([text], [field(id).value]);
  },
});

const startState = {
  read: () => league.start === page.starts[0] ? [] : [league.start],
  write([start = page.starts[0]]) {
    startFrom(page.starts.includes(start) ? start : page.starts[0]);
    return without([start], page.starts);
  },
};

// what is shown: read as texts, none where it is what the page begins with; written from such, which answers what isn't here
const SHOWN = {
  words: fieldState("words"), family: fieldState("family"), inputs: rangeState("inputs"), outputs: rangeState("outputs"),
  method: methodState, sort: sortState("functions"), league: sortState("league"), families: sortState("families"),
  start: startState, curves: curvesState,
};

/** What is shown, as it stands in the address. */
function shownText() {
  const found = new URLSearchParams();
  for (const [key, {read}] of Object.entries(SHOWN)) for (const text of read()) found.append(key, text);
  return String(found) && `?${found}`;
}

/** Shows what an address says; answers what of it isn't here. */
function showText(text) {
  const given = new URLSearchParams(text);
  const unknown = Object.entries(SHOWN).flatMap(([key, {write}]) => write(given.getAll(key)));
  return [...without([...given.keys()], Object.keys(SHOWN)), ...unknown];
}

/** Writes what is shown into the address of a part of the page, where it is other than before. */
function note(part) {
  clearTimeout(timer);
  timer = setTimeout(() => {
    if (overview.hidden || shownText() === noted) return;
    noted = shownText();
    history.replaceState(null, "", `#${part}${noted}`);
  }, WAIT);
}

/** What the address names, and what is to be shown there; the name is null if it can't be read. */
function linked() {
  const [name, ...text] = location.hash.slice(1).split("?");
  try {
    return {name: decodeURIComponent(name), text: text.join("?")};
  } catch {
    return {name: null, text: ""};
  }
}

const sayOfLink = (text) => say(text, {isFault: true, ofLink: true});

/** Says that a link names nothing here, with the functions whose names differ by their numbers alone. */
function sayUnknown(name) {
  const stem = (text) => text.toLowerCase().replace(/\d/g, "");
  const close = page.functions.filter((it) => stem(it.name) === stem(name));
  const said = close.length ? ` Here are ${close.map((it) => it.name).join(", ")}.` : "";
  sayOfLink(`No function and no part of this page is named ${shortened(name)}.${said}`);
}

/** Leaves a function's view for where the reader was, at its row. */
function leaveView(name) {
  document.title = title;
  drawLeague();
  drawGrowthAgain();
  if (!["", "functions"].includes(name)) return;
  const row = linksOf("functions").find((it) => it.textContent === shown.name);
  if (row) row.focus({preventScroll: true});
  scrollTo(0, height);
}

function showOverview({name, text}) {
  const wasView = !view.hidden, isPart = PARTS.has(name);
  view.hidden = true;
  overview.hidden = false;
  const unknown = text ? showText(text) : [];
  if (wasView) leaveView(name);
  if (isPart && !(wasView && name === "functions")) field(name).scrollIntoView();
  noted = text ? `?${text}` : "";
  note(isPart ? name : "");
  if (name === null) sayOfLink("The address has a name that can't be read.");
  else if (name && !isPart) sayUnknown(name);
  else if (unknown.length) sayOfLink(`The address asks for what isn't here: ${unknown.map(shortened).join(", ")}.`);
}

function route() {
  const link = linked(), it = functionNamed(link.name || "");
  if (saidOfLink) unsay();
  if (!it) {
    showOverview(link);
    return;
  }
  if (view.hidden) height = scrollY;
  view.hidden = false;
  overview.hidden = true;
  show(it).focus({preventScroll: true});
  scrollTo(0, 0);
}

for (const kind of ["input", "change", "reset"]) field("filters").addEventListener(kind, () => note("functions"));
for (const name of Object.keys(FIRST_SORT))
  for (const kind of ["click", "keydown"]) field(`${name}-table`).tHead.addEventListener(kind, () => note(name));
field("curves").addEventListener("change", () => note("curves"));
document.querySelector("h1 a").addEventListener("click", () => { height = 0; });
addEventListener("hashchange", route);
route();
