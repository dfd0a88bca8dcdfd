"use strict";
// All orders of a function: the share that has at most so many nodes, as a curve, and on it what the methods make of it.
const RAISED = "⁰¹²³⁴⁵⁶⁷⁸⁹";
// from a size as many times the fewest the axis is logarithmic
const FAR = 4;
// marks that are as many pixels apart have names of their own
const CLOSE = 16;
// what stands on the curve and is no method's
const KINDS = {"the fewest": "best", "the mean": "mean"};

const ordersOf = (it) => it.within[it.within.length - 1][1];
const mostOf = (it) => it.within[it.within.length - 1][0];
const grouped = (number) => number.toLocaleString("en");

/** The last known size that isn't above a number of nodes, and how many orders have at most so many. */
const knownOf = (it, nodes) => it.within[d3.bisectRight(it.within.map(([size]) => size), nodes) - 1];

/** Where a share of all stands on the axis: a tenth of it, below one half, and of what it leaves, above, is one step. */
const heightOf = (part, all) =>
  2 * part <= all ? Math.log10(2 * part / all) : -Math.log10(2 * Math.max(all - part, 0.5) / all);

function shareText(part, all) {
  const oneIn = (few) => `1 in ${grouped(Number((all / few).toPrecision(3)))}`;
  if (part === all) return "all";
  if (1000 * part < all) return oneIn(part);
  return 1000 * (all - part) < all ? `all but ${oneIn(all - part)}` : `${Number((100 * part / all).toPrecision(3))} %`;
}

/** The texts of the axis by their heights. */
function ticksOf(all) {
  const digits = Math.log10(all), found = new Map([[0, "half"]]), step = digits > 7 ? 3 : 1;
  for (let i = step; i < digits; i += step) {
    const part = 10 ** -i, isPercent = i <= 3, power = `10\u207b${[...String(i)].map((it) => RAISED[it]).join("")}`;
    found.set(heightOf(part, 1), isPercent ? `${Number((100 * part).toFixed(1))} %` : power);
    found.set(-heightOf(part, 1), isPercent ? `${Number((100 - 100 * part).toFixed(1))} %` : `1\u2212${power}`);
  }
  return found;
}

/** What stands on the curve, from the fewest nodes: what has so many, also from random orders, and a text that says it. */
function marksOf(it) {
  const found = new Map(), all = ordersOf(it);
  function add(nodes, name, start = "file") {
    if (!found.has(nodes)) found.set(nodes, {file: [], randomStarts: []});
    found.get(nodes)[start].push(name);
  }
  add(it.optimum, "the fewest");
  add(it.mean, "the mean");
  add(it.fileOrder, "the file's order");
  for (const method of page.methods) for (const start of page.starts) {
    const nodes = method[start][it.name]?.[COUNTED] ?? null;
    if (nodes !== null) add(nodes, labelOf(method) + claimIn(it, method, start), start);
  }
  return [...found].sort(([a], [b]) => a - b).map(([nodes, {file, randomStarts}]) => {
    const [size, part] = knownOf(it, nodes), least = size < Math.floor(nodes) ? "at least " : "";
    const random = randomStarts.length ? `from random orders ${randomStarts.join(", ")}` : "";
    const said = [file.join(", "), random].filter(Boolean).join("; ");
    const text = `${nodes} nodes: ${said}. Share of all orders with no more: ${least}${shareText(part, all)}.`;
    return {nodes, part, text, kind: file.length ? KINDS[file[0]] || "" : "random", names: [...file, ...randomStarts]};
  });
}

/** Marks of which the keyboard stops at one; arrows walk to the others. */
function addMarks(svg, marks, x, y) {
  const added = svg.selectAll(null).data(marks).enter().append("g").attr("role", "img"), elements = added[0];
  added.attr("class", ({kind}) => `mark ${kind}`).attr("aria-label", ({text}) => text);
  added.append("circle").attr("r", 5).attr("cx", x).attr("cy", y);
  added.on("mouseenter", ({text}) => { field("mark").textContent = text; });
  added.on("focus", function ({text}) {
    field("mark").textContent = text;
    stopIn(elements, this);
  });
  added.on("keydown", () => walkIn(elements, d3.event, ["ArrowRight", "ArrowLeft"]));
  stopIn(elements, elements[0]);
}

/** The ends of leaders to names, of which marks that stand close together share one. */
function endsOf(marks, left, top) {
  const groups = [];
  for (const it of marks) {
    const group = groups[groups.length - 1], [first] = group || [];
    if (first && Math.hypot(left(it) - left(first), top(it) - top(first)) < CLOSE) group.push(it);
    else groups.push([it]);
  }
  return groups.map((group) => {
    const others = sumOf(group.map(({names}) => names.length)) - 1, it = group.find(({names}) => names[0] in KINDS) || group[0];
    return {line: {label: it.names[0], mark: others ? ` +${others}` : "", colour: "var(--muted)"}, x: left(it), y: top(it)};
  });
}

function drawOrders(it) {
  const all = ordersOf(it), most = mostOf(it), marks = marksOf(it);
  if (most === it.optimum) return;
  const x = (most > FAR * it.optimum ? d3.scale.log() : d3.scale.linear()).domain([it.optimum, most]);
  const y = d3.scale.linear().domain([-Math.log10(all), Math.log10(all)]), ticks = ticksOf(all);
  const said = ["nodes, at most", "share of all orders"];
  const svg = chart("orders", x, y, said, [...ticks.keys()], "d", (height) => ticks.get(height)).attr("role", "group");
  const left = ({nodes}) => x(nodes), top = ({part}) => y(heightOf(part, all));
  const steps = it.within.map(([size, part]) => `H${x(size).toFixed(1)}V${y(heightOf(part, all)).toFixed(1)}`);
  svg.append("path").attr("class", "curve all").attr("d", `M${x(it.optimum)},${y.range()[0]}${steps.join("")}`);
  addNames("orders", svg, endsOf(marks, left, top), x(most));
  addMarks(svg, marks, left, top);
  field("mark").textContent = marks[0].text;
  field("marks").append(...marks.map(({text}) => element("li", {}, text)));
  field("marks").parentNode.open = !hasNames("orders");
}

/** What is said of all orders, with the places of their curve and of its marks. */
function allOrders(it) {
  const all = ordersOf(it), most = mostOf(it), [fewest, optimal] = it.within[0], title = head("All orders");
  if (most === fewest)
    return element("div", {}, title, element("p", {}, `Each of the ${grouped(all)} orders has ${most} nodes.`));
  const have = optimal === 1 ? "1 has" : `${grouped(optimal)} have`;
  const said = `Of the ${grouped(all)} orders ${have} the fewest nodes, ${fewest}; the mean is ${it.mean}, the most ${most}.`
    + " On the curve are the methods from the file's order, and as rings those from random orders alone;"
    + " arrow keys walk along it.";
  return element("div", {}, title, element("p", {}, said), element("div", {class: "chart", id: "orders"}),
    element("p", {id: "mark"}), element("details", {}, element("summary", {}, "All of these"), element("ul", {id: "marks"})));
}
