"use strict";
// Curves by D3: shares of the functions within a ratio, and the growth of families.
const SIZE = {height: 384, left: 52, right: 16, top: 26, bottom: 44};
// names at the ends of curves, where a picture is wide enough for them
const NAMES = {least: 640, room: 168, letters: 22, apart: 13, near: 90};
const COLOURS = 10;
const DASHES = ["", "8 3", "2 3", "10 3 2 3"];

/** A colour and a dash, which the next line hasn't; none has both before there are forty. */
const styleOf = (place) =>
  ({colour: `var(--curve${place % COLOURS})`, dash: DASHES[(place + Math.floor(place / COLOURS)) % DASHES.length]});

/** As wide as there is room, in the page's pixels. */
const widthOf = (id) => Math.max(300, Math.min(900, document.getElementById(id).clientWidth));
const axisOf = (scale, orient) => d3.svg.axis().scale(scale).orient(orient).outerTickSize(0);

/** An empty picture with what its axes are called. */
function picture(id, below, besides, right = SIZE.right) {
  const {height} = SIZE, width = widthOf(id);
  const svg = d3.select(`#${id}`).html("").append("svg").attr("viewBox", `0 0 ${width} ${height}`)
    .attr("role", "img").attr("aria-label", `${besides}, by ${below}`);
  svg.append("text").attr("x", width - right).attr("y", height - 6).attr("text-anchor", "end").text(below);
  svg.append("text").attr("x", 4).attr("y", 14).text(besides);
  return svg;
}

const hasNames = (id) => widthOf(id) >= NAMES.least;
const rightOf = (id) => SIZE.right + (hasNames(id) ? NAMES.room : 0);

/** An empty chart with its axes; `ticks` are the values of the vertical one, which `besides` names. */
function chart(id, x, y, said, ticks, format, besides = String) {
  const {height, left, top, bottom} = SIZE, right = rightOf(id), width = widthOf(id), svg = picture(id, ...said, right);
  x.range([left, width - right]);
  y.range([height - bottom, top]);
  svg.insert("g", "text").attr("class", "axis grid").attr("transform", `translate(${left},0)`)
    .call(axisOf(y, "left").tickValues(ticks).tickSize(left + right - width, 0).tickFormat(""));
  const below = axisOf(x, "bottom").ticks(Math.round(width / 70), format);
  svg.append("g").attr("class", "axis").attr("transform", `translate(0,${height - bottom})`).call(below);
  const beside = axisOf(y, "left").tickValues(ticks).tickFormat(besides);
  svg.append("g").attr("class", "axis").attr("transform", `translate(${left},0)`).call(beside);
  return svg;
}

/** A piece of a line as it is drawn. */
function swatch(line) {
  const made = document.createElementNS("http://www.w3.org/2000/svg", "svg");
  made.setAttribute("class", "swatch");
  made.setAttribute("aria-hidden", "true");
  d3.select(made).append("line").attr({x1: 0, x2: 34, y1: 4, y2: 4}).style("stroke", line.colour)
    .attr({"stroke-width": line.yours ? 4 : 2.4, "stroke-dasharray": line.dash});
  return made;
}

/** A switch for each line: a box to tick, which draws anew. */
function switches(id, lines, draw) {
  const box = document.getElementById(id), legend = box.querySelector("legend");
  box.replaceChildren(legend, ...lines.map((line) => {
    const input = element("input", {type: "checkbox", value: line.label});
    input.checked = line.on;
    input.addEventListener("change", () => { line.on = input.checked; draw(); });
    const label = element("label", {}, input, swatch(line), line.label + line.mark);
    for (const [event, near] of [["mouseenter", true], ["mouseleave", false], ["focusin", true], ["focusout", false]])
      label.addEventListener(event, () => d3.selectAll(".curve").filter((it) => it === line).classed("near", near));
    return label;
  }));
}

function addPaths(svg, lines, pathOf) {
  const paths = svg.selectAll(".curve").data(lines.filter((line) => line.on)).enter().append("path")
    .attr("class", (line) => `curve${line.yours ? " yours" : ""}`).attr("d", pathOf)
    .style("stroke", (line) => line.colour).attr("stroke-dasharray", (line) => line.dash);
  paths.append("title").text((line) => line.label + line.mark);
  return paths;
}

/** Heights as near to those given, the least first, as leaves them apart, none below the last one that is allowed. */
function parted(heights, last) {
  const apart = Math.min(NAMES.apart, (last - SIZE.top) / Math.max(1, heights.length - 1)), found = [...heights];
  for (let i = 1; i < found.length; i += 1) found[i] = Math.max(found[i], found[i - 1] + apart);
  if (found.length) found[found.length - 1] = Math.min(found[found.length - 1], last);
  for (let i = found.length - 2; i >= 0; i -= 1) found[i] = Math.min(found[i], found[i + 1] - apart);
  return found;
}

/** Names at the ends of curves; an end is a line and a place. Those near the right edge stand in one column, or all behind a
    place that is given. */
function addNames(id, svg, ends, column = null) {
  if (!hasNames(id)) return;
  const edge = widthOf(id) - rightOf(id), isRight = ({x}) => column !== null || x > edge - NAMES.near;
  const columns = d3.nest().key((end) => isRight(end) ? "right" : Math.round(end.x)).entries(ends);
  for (const {values} of columns) {
    const its = values.sort((a, b) => a.y - b.y), heights = parted(its.map(({y}) => y), SIZE.height - SIZE.bottom);
    const beside = (column ?? d3.max(its, ({x}) => x)) + 14;
    its.forEach(({line, x, y}, i) => {
      svg.append("path").attr("class", "leader").attr("d", `M${x},${y}L${beside},${heights[i]}`).style("stroke", line.colour);
      const text = svg.append("text").attr({class: "name", x: beside + 3, y: heights[i], dy: "0.35em"});
      const room = NAMES.letters - line.mark.length;
      text.text((line.label.length > room ? `${line.label.slice(0, room - 1)}…` : line.label) + line.mark);
    });
  }
}

// ---- the league

const league = {start: "file", lines: []};

/** A line for each method, those with a curve at first in the first colours. */
function leagueLines() {
  const before = new Map(league.lines.map((line) => [line.method, line.on]));
  const others = page.methods.filter((it) => !it.yours);
  const places = [...others.filter((it) => it.curve), ...others.filter((it) => !it.curve)];
  return page.methods.map((method) => {
    const on = before.get(method);
    const style = method.yours ? {...styleOf(own().indexOf(method)), colour: "var(--text)"} : styleOf(places.indexOf(method));
    const {yours, curve} = method;
    return {label: labelOf(method), mark: markOf(method), method, yours, first: curve, on: on ?? curve, ...style};
  });
}

function drawLeague() {
  const on = league.lines.filter((line) => line.on).map((line) => [line, standing(line.method, league.start)]);
  const found = new Map(on.filter(([, {has}]) => has)), lines = [...found.keys()];
  const least = d3.min([...found.values()], ({met, whole}) => 100 * met / whole) || 0, from = 10 * Math.floor(least / 10);
  const x = d3.scale.linear().domain([1, 2]), y = d3.scale.linear().domain([from, 100]);
  const svg = chart("curves-chart", x, y, ["nodes / fewest nodes, at most", "% of the functions"], d3.range(from, 101, 10));
  addPaths(svg, lines, (line) => {
    const {ratios, whole, met} = found.get(line);
    const step = (ratio, i) => `H${x(ratio).toFixed(1)}V${y(100 * (i + 1) / whole).toFixed(1)}`;
    const shares = ratios.map((ratio, i) => ratio > 1 && ratio <= 2 ? step(ratio, i) : "");
    return `M${x(1)},${y(100 * met / whole).toFixed(1)}${shares.join("")}H${x(2)}`;
  });
  const shareOf = ({ratios, whole}) => 100 * ratios.filter((ratio) => ratio <= 2).length / whole;
  addNames("curves-chart", svg, lines.map((line) => ({line, x: x(2), y: y(shareOf(found.get(line)))})));
}

function makeLeague() {
  league.lines = leagueLines();
  switches("curves-switches", league.lines, drawLeague);
  drawLeague();
}

/** Draws the curves that are wished, and no others. */
function turnOn(isWished) {
  for (const line of league.lines) line.on = isWished(line);
  switches("curves-switches", league.lines, drawLeague);
  drawLeague();
}

function startFrom(start) {
  league.start = start;
  document.querySelector(`input[name=start][value=${start}]`).checked = true;
  drawLeague();
}

for (const radio of document.querySelectorAll("input[name=start]"))
  radio.addEventListener("change", () => startFrom(radio.value));

// ---- growth

const FIRST = new Set(["hwb", "add", "mul"]);

function growthLines() {
  const found = new Map();
  for (const it of page.functions) if (it.stem) found.set(it.stem, [...(found.get(it.stem) || []), it]);
  const stems = [...found].filter(([, its]) => new Set(its.map((it) => it.inputs.length)).size > 2);
  const places = [...stems.filter(([stem]) => FIRST.has(stem)), ...stems.filter(([stem]) => !FIRST.has(stem))];
  return stems.map(([stem, its]) => ({
    label: stem, mark: "", on: FIRST.has(stem),
    points: its.map((it) => [it.inputs.length, it.optimum, it.name]).sort((a, b) => a[0] - b[0]),
    ...styleOf(places.findIndex(([other]) => other === stem)),
  }));
}

function drawGrowth(lines) {
  const x = d3.scale.linear().domain([2.5, 16.5]), y = d3.scale.log().domain([2, 10000]);
  const ticks = [2, 5, 10, 20, 50, 100, 200, 500, 1000, 2000, 5000, 10000];
  const svg = chart("growth-chart", x, y, ["inputs", "fewest nodes"], ticks, "d");
  const path = d3.svg.line().x((point) => x(point[0])).y((point) => y(point[1]));
  addPaths(svg, lines, (line) => path(line.points));
  for (const line of lines.filter((it) => it.on)) {
    const dots = svg.selectAll(null).data(line.points).enter().append("a").attr("xlink:href", (point) => `#${point[2]}`);
    dots.append("circle").attr({r: 3.5}).attr("cx", (point) => x(point[0])).attr("cy", (point) => y(point[1])).style("fill", line.colour);
    dots.append("title").text((point) => `${point[2]}: ${point[1]} nodes`);
  }
  const ends = lines.filter((it) => it.on).map((line) => [line, line.points[line.points.length - 1]]);
  addNames("growth-chart", svg, ends.map(([line, point]) => ({line, x: x(point[0]) + 4, y: y(point[1])})));
}

function makeGrowth() {
  const lines = growthLines(), draw = () => drawGrowth(lines);
  switches("growth-switches", lines, draw);
  draw();
  return draw;
}

makeLeague();
const drawGrowthAgain = makeGrowth();
let waiting = 0;
addEventListener("resize", () => {
  clearTimeout(waiting);
  waiting = setTimeout(() => { if (!overview.hidden) { drawLeague(); drawGrowthAgain(); } }, 150);
});
