"use strict";
// A function's own view, by its link.
const view = document.getElementById("function");
const LEVELS = [["fewest nodes", "var(--bar1)"], ["sifted", "var(--bar2)"], ["file's order", "var(--bar3)"]];

const namesOf = (it, order) => order.map((x) => it.inputs[x]).join(" ");
/** What may be wider than the window. */
const scrolled = (name, it) => element("div", {class: "scroll", tabindex: 0, role: "region", "aria-label": name}, it);
const head = (text) => element("h3", {}, text);

function facts(it) {
  const list = element("dl", {class: "facts"});
  const rows = [
    ["Family", it.family], ["What", it.what], ["Field's names", it.aliases.join(", ")],
    ["Inputs", `${it.inputs.length}: ${it.inputs.join(" ")}`],
    ["Outputs", String(it.outputs)], ["Fewest nodes", String(it.optimum)], ["First optimal order", it.order.join(" ")],
    ["by names", namesOf(it, it.order)], ["Sifted order", it.siftedOrder.join(" ")],
  ];
  for (const [term, text] of rows) if (text) list.append(element("dt", {}, term), element("dd", {}, text));
  const hand = it.stem && page.byHand[it.stem];
  if (hand) list.append(element("dt", {}, "Counted by hand"), element("dd", {}, `${hand[0]}: ${hand[1]} nodes. ${hand[2]}`));
  return list;
}

// ---- sizes

/** What stands behind a number of nodes that is only claimed. */
const claimIn = (it, method, start) => method.yours && method.claimed[start].has(it.name) ? " claimed" : "";
const nodesCell = (nodes, it, method, start) => element("td", {}, `${nodes}${claimIn(it, method, start)}`);

function sizeRow(it, method, longest) {
  const sizes = method.file[it.name], random = method.randomStarts[it.name];
  const row = element("tr", method.yours ? {class: "yours"} : {});
  const ratio = sizes && sizes[COUNTED] !== null ? ratioOf(sizes[COUNTED], it.name) : null;
  const late = sizes && sizes[COUNTED] === null ? (sizes[LATE] ? "late" : "no order") : "";
  const bar = element("span", {class: "bar", style: `width: ${ratio === null ? 0 : 100 * ratio / longest}%`});
  const median = random && random[COUNTED] !== null ? random[COUNTED] : null;
  const medianRatio = median === null ? "" : ratioOf(median, it.name).toFixed(3);
  row.append(
    element("th", {scope: "row"}, labelOf(method)), nodesCell(ratio === null ? late : sizes[COUNTED], it, method, "file"),
    element("td", {}, ratio === null ? "" : ratio.toFixed(3)), element("td", {class: "drawn"}, bar),
    nodesCell(median ?? "", it, method, "randomStarts"), element("td", {}, medianRatio));
  return row;
}

function sizeTable(it) {
  const ratio = (method) => ratioOf((method.file[it.name] || [null])[COUNTED] || Infinity, it.name);
  const methods = page.methods.filter((method) => method.file[it.name] || method.randomStarts[it.name]).sort((a, b) => ratio(a) - ratio(b));
  const longest = Math.max(...methods.map(ratio).filter(Number.isFinite), 1);
  const heads = ["Method", "Nodes, file's order", "Ratio", "", "Nodes, random orders", "Ratio"]
    .map((text, i) => element("th", i === 2 ? {scope: "col", "aria-sort": "ascending"} : {scope: "col"}, text));
  const body = element("tbody", {}, ...methods.map((method) => sizeRow(it, method, longest)));
  const table = element("table", {class: "data"}, element("thead", {}, element("tr", {}, ...heads)), body);
  const said = `Under the file's order: ${it.fileOrder} nodes, ${ratioOf(it.fileOrder, it.name).toFixed(3)} times the fewest.`;
  const title = "What the methods make of it";
  return element("div", {}, head(title), element("p", {}, said), scrolled(title, table));
}

// ---- level counts

function drawLevels(it, on) {
  const levels = it.inputs.length, most = d3.max(it.levels.filter((_, i) => on[i]), (counts) => d3.max(counts)) || 1;
  const x = d3.scale.ordinal().domain(d3.range(1, levels + 1)), y = d3.scale.linear().domain([0, most]).nice();
  const {height, left, right, top, bottom} = SIZE, svg = picture("levels", "level, from the top", "nodes");
  x.rangeRoundBands([left, widthOf("levels") - right], 0.25);
  y.range([height - bottom, top]);
  svg.append("g").attr("class", "axis").attr("transform", `translate(0,${height - bottom})`).call(axisOf(x, "bottom"));
  const beside = axisOf(y, "left").ticks(6).tickFormat(d3.format("d"));
  svg.append("g").attr("class", "axis").attr("transform", `translate(${left},0)`).call(beside);
  const shown = d3.range(LEVELS.length).filter((i) => on[i]), wide = x.rangeBand() / Math.max(1, shown.length);
  shown.forEach((i, place) => {
    const bars = svg.selectAll(null).data(it.levels[i]).enter().append("rect").style("fill", LEVELS[i][1]);
    bars.attr("x", (_, level) => x(level + 1) + place * wide).attr("width", Math.max(1, wide - 1));
    bars.attr("y", y).attr("height", (count) => y(0) - y(count));
    bars.append("title").text((count, level) => `level ${level + 1}, ${LEVELS[i][0]}: ${count} nodes`);
  });
}

function levelChart(it, on) {
  const boxes = LEVELS.map(([said, colour], i) => {
    const input = element("input", {type: "checkbox"});
    input.checked = on[i];
    input.addEventListener("change", () => { on[i] = input.checked; drawLevels(it, on); });
    const total = d3.sum(it.levels[i]);
    return element("label", {}, input, element("span", {class: "swatch", style: `background: ${colour}`}), `${said}, ${total} nodes`);
  });
  const orders = element("fieldset", {class: "switches"}, element("legend", {}, "Orders"), ...boxes);
  return element("div", {}, head("Nodes on each level"), element("div", {class: "chart", id: "levels"}), orders);
}

// ---- the diagram

function diagram(it) {
  if (!it.diagram) return null;
  const {size: [width, height], marks, paths} = it.diagram;
  const made = document.createElementNS("http://www.w3.org/2000/svg", "svg"), svg = d3.select(made);
  svg.attr({viewBox: `-4 -4 ${width + 8} ${height + 8}`, width: width + 8, height: height + 8});
  svg.attr({role: "img", "aria-label": `The diagram of ${it.name}`});
  svg.append("path").attr("d", paths["1"]);
  svg.append("path").attr("class", "zero").attr("d", paths["0"]);
  svg.append("path").attr("d", paths.f);
  for (const [kind, x, y, text] of marks) {
    if (kind === "node") svg.append("circle").attr({cx: x, cy: y, r: 13});
    if (kind === "end") svg.append("rect").attr({x: x - 11, y: y - 10, width: 22, height: 20});
    svg.append("text").attr({x, y}).attr("class", kind === "name" ? "out" : null).text(text);
  }
  const said = element("p", {}, "Under its first optimal order; dashed edges are those of 0.");
  return element("div", {class: "diagram"}, head("The diagram"), said, scrolled("The diagram", made));
}

// ---- what to copy

function copied(title, text) {
  const button = element("button", {type: "button"}, "Copy"), said = element("span", {role: "status"});
  button.addEventListener("click", async () => {
    try {
      await navigator.clipboard.writeText(text);
      said.textContent = " copied";
    } catch {
      getSelection().selectAllChildren(block);
      said.textContent = " selected: copy it by the keyboard";
    }
  });
  const block = element("pre", {tabindex: 0}, text);
  return element("div", {}, head(title), block, button, said);
}

function again(it) {
  const {name, optimum, sums} = it;
  const lines = [
    `minorder-functions . ${name}`, `minorder --cert ${name}.cert ${name}.pla`, `ordercheck ${name}.pla ${name}.cert   # valid ${optimum}`,
    "sha256sum -c << END", `${sums[0]}  ${name}.pla`, `${sums[1]}  ${name}.cert`, "END",
  ];
  return copied("The file and the certificate again", lines.join("\n"));
}

function citation(it) {
  const lines = [
    `@misc{minorder-${it.name},`, "  author = {{The minorder developers}},",
    `  title  = {True optima, ${it.name}: ${it.optimum} decision nodes},`,
    `  note   = {minorder ${page.version}. SHA-256 of the PLA file: ${it.sums[0]}; of the certificate: ${it.sums[1]}},`, "}",
  ];
  return copied("BibTeX", lines.join("\n"));
}

// ---- the view

/** Links to the table and to the functions beside this one there. */
function walk(it) {
  const names = shownNames(), at = names.indexOf(it.name), before = names[at - 1], after = at < 0 ? null : names[at + 1];
  const link = (name, text) => name ? element("a", {href: `#${name}`}, text) : null;
  return element("nav", {class: "walk", "aria-label": "Functions"}, element("a", {href: "#functions"}, "All functions"),
    link(before, `\u2190 ${before}`), link(after, `${after} \u2192`));
}

/** The function that the view shows. */
let shown = null;

function show(it) {
  shown = it;
  const title = element("h2", {tabindex: -1}, it.name), on = [true, true, it.fileOrder <= 4 * it.sifted];
  const figures = element("div", {class: "beside"}, levelChart(it, on), diagram(it), sizeTable(it));
  view.replaceChildren(walk(it), title, facts(it), allOrders(it), figures, element("div", {class: "beside"}, again(it), citation(it)));
  drawOrders(it);
  drawLevels(it, on);
  document.title = `${it.name}: ${it.optimum} nodes`;
  return title;
}

/** Shows the same function again, where methods are others. */
function showAgain() {
  if (!view.hidden) show(shown);
}
