"use strict";
// The functions in their table: those that are wished, with the sizes of a method.
const FILTERS = ["words", "family", "inputs-least", "inputs-most", "outputs-least", "outputs-most"];
const firstMethod = page.methods.find((it) => it.package === "minorder");
const shownMethod = {method: firstMethod};
const wishes = () => FILTERS.map((id) => field(id).value).join("\n");
let filtered = "";

const limits = () => Object.fromEntries(["inputs", "outputs"].map((what) => [
  what, [Number(field(`${what}-least`).value) || 1, Number(field(`${what}-most`).value) || 16]]));

function isShown(it) {
  const text = [it.name, ...it.aliases, it.family, it.what].join(" ").toLowerCase();
  const words = field("words").value.toLowerCase().split(/\s+/).filter(Boolean);
  const {inputs, outputs} = limits();
  return words.every((word) => text.includes(word)) && (!field("family").value || field("family").value === it.family)
    && it.inputs.length >= inputs[0] && it.inputs.length <= inputs[1] && it.outputs >= outputs[0] && it.outputs <= outputs[1];
}

$.fn.dataTable.ext.search.push((settings, cells, index) =>
  settings.nTable.id !== "functions-table" || isShown(byName.get(settings.aoData[index].nTr.dataset.name)));

function filter() {
  filtered = wishes();
  tables.functions.draw();
  field("shown").value = `${tables.functions.rows({search: "applied"}).count()} of ${page.functions.length} functions`;
}

function makeFilters() {
  for (const family of new Set(page.functions.map((it) => it.family))) field("family").append(element("option", {}, family));
  for (const kind of ["input", "change"])
    // a press of the mouse that leaves a field must find its row where it was
    field("filters").addEventListener(kind, () => { if (wishes() !== filtered) filter(); });
  field("filters").addEventListener("submit", (event) => event.preventDefault());
  // the method stays
  field("filters").addEventListener("reset", () => setTimeout(() => showMethod(labelOf(shownMethod.method))));
  field("method").addEventListener("change", () => showMethod(field("method").value));
  listMethods();
  filter();
}

// ---- the method whose sizes stand there

function listMethods() {
  field("method").replaceChildren(...page.methods.map((it) => element("option", {value: labelOf(it)}, saidOf(it))));
  field("method").value = labelOf(shownMethod.method);
}

/** Shows the sizes of a method from the file's order, of several runs those of the median run. */
function showMethod(label) {
  shownMethod.method = page.methods.find((it) => labelOf(it) === label);
  field("method").value = label;
  const head = headsOf("functions").find((it) => it.dataset.key === "nodes");
  head.firstChild.nodeValue = shownMethod.method === firstMethod ? "Sifted" : saidOf(shownMethod.method);
  tables.functions.rows().every(function () {
    const row = this.node(), sizes = shownMethod.method.file[row.dataset.name] || [null];
    const nodes = sizes[COUNTED], ratio = nodes === null ? null : ratioOf(nodes, row.dataset.name);
    setCell(row.cells[7], nodes === null ? "" : String(nodes), nodes === null ? Infinity : nodes);
    setCell(row.cells[9], ratio === null ? "" : ratio.toFixed(3), ratio === null ? Infinity : ratio);
  });
  tables.functions.rows().invalidate("dom");
  filter();
}

function setCell(cell, text, order) {
  cell.textContent = text;
  cell.dataset.order = order === Infinity ? 1e9 : order;
}

makeFilters();
