"use strict";
// The tables, which sort by each column.
const overview = document.getElementById("overview");
const field = (id) => document.getElementById(id);
// the columns by which the tables are sorted at first; a minus before one turns it
const FIRST_SORT = {league: ["random"], functions: ["name"], families: ["family"]};
const tables = {};

const headsOf = (name) => [...field(`${name}-table`).tHead.rows[0].cells];

/** The columns by which a table is sorted. */
const sortOf = (name) => tables[name].order().map(([at, turn]) => (turn === "desc" ? "-" : "") + headsOf(name)[at].dataset.key);

/** An order of DataTables' by those of the columns that the table has; by the first sort if it has none. */
function orderBy(name, columns) {
  const keys = headsOf(name).map((it) => it.dataset.key);
  const found = columns.map((column) => [keys.indexOf(column.replace(/^-/, "")), column.startsWith("-") ? "desc" : "asc"]);
  const known = found.filter(([at]) => at >= 0);
  return known.length ? known : orderBy(name, FIRST_SORT[name]);
}

/** Makes a table sort; each table keeps what it is given. */
function makeTable(name, columns = FIRST_SORT[name]) {
  const order = orderBy(name, columns);
  tables[name] = $(`#${name}-table`).DataTable({paging: false, info: false, autoWidth: false, dom: "t", order});
}

/** The names of the functions in the table, as they stand there. */
const shownNames = () =>
  tables.functions.rows({order: "applied", search: "applied"}).nodes().toArray().map((it) => it.dataset.name);

for (const name of Object.keys(FIRST_SORT)) makeTable(name);
