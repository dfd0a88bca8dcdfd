"use strict";
// A file of results, `name,order` or `name,nodes`: read, and what is wrong with it.
const MOST_BYTES = 20e6, MOST_FAULTS = 12, MOST_SECONDS = 1e9;
const TAKEN = "minorder-score RESULTS --csv writes a file that this page takes";
const NAMED = "name and order, or name and nodes; besides these seconds and start";
const COLUMNS = ["name", "order", "nodes", "start", "claimed", "seconds"];
// what the browser keeps: whether the nodes were counted here stands in place of an order
const KEPT = ["name", "nodes", "start", "counted", "seconds"];
const DECIMAL = /^(\d+\.?\d*|\.\d+)(e[+-]?\d+)?$/i;

/** A text of the reader's as far as a message has room for it. */
const shortened = (text) => (text.length > 40 ? `${text.slice(0, 40)}…` : text).replace(/[\p{C}\ufffd]/gu, "?");

/** The start that a cell names; null if it names none. */
function startOf(text) {
  const start = (text || "file").toLowerCase();
  if (start === "file") return "file";
  return start === "random" || /^([1-9]|10)$/.test(start) ? "randomStarts" : null;
}

const isLate = (word) => word.toLowerCase() === "late";

// ---- what is refused; each answers why, and nothing if it isn't

/** Of the words of an order. */
function faultOfOrder(words, it) {
  const most = it.inputs.length - 1, isName = (word) => it.inputs.includes(word);
  const isNumber = (word) => /^(0|[1-9]\d*)$/.test(word) && Number(word) <= most;
  const unknown = words.find((word) => !isNumber(word) && !isName(word));
  if (unknown !== undefined) return `${shortened(unknown)} is no input: they are 0 to ${most}, or ${it.inputs.join(" ")}`;
  const other = words.find((word) => isName(word) !== isName(words[0]));
  if (other !== undefined) return `${words[0]} and ${other}: an order has numbers or names, not both`;
  const twice = words.find((word, i) => words.indexOf(word) !== i);
  if (twice !== undefined) return `input ${twice} stands twice`;
  const missing = it.inputs.findIndex((name, x) => !words.includes(name) && !words.includes(String(x)));
  return missing >= 0 ? `input ${missing} is missing` : "";
}

/** Of a number of nodes without an order. */
function faultOfClaim(nodes, it) {
  if (nodes < it.optimum) return `${nodes} nodes, and no order has fewer than ${it.optimum}: counted with complement edges?`;
  const most = mostOf(it), bound = most === it.optimum ? `each order has ${most}` : `no order has more than ${most}`;
  return nodes > most ? `${nodes} nodes, and ${bound}: constants counted?` : "";
}

/** Of a cell of the column claimed that says otherwise than the line. */
function faultOfClaimed(said, hasOrder) {
  if (!["", "0", "1"].includes(said)) return `claimed ${shortened(said)}: it is 0 or 1`;
  if (!hasOrder && said === "0") return "claimed 0, but a number of nodes without an order is a claim";
  return hasOrder && said === "1" ? "claimed 1, but it has an order, which is counted here" : "";
}

function faultOf({start, nodes, order, claimed, seconds}, it, isKept) {
  const words = [order, nodes].filter(Boolean), others = words.filter((word) => !isLate(word));
  if (startOf(start) === null) return `start ${shortened(start)}: it is file, random, or 1 to 10`;
  if (seconds && !(DECIMAL.test(seconds) && Number(seconds) <= MOST_SECONDS))
    return `seconds ${shortened(seconds)}: no number of seconds: decimal, from 0 to ${MOST_SECONDS}`;
  if (!words.length) return "neither an order nor a number of nodes";
  if (words.some(isLate)) return others.length ? `both late and ${shortened(others[0])}` : "";
  if (nodes && !/^\d{1,9}$/.test(nodes)) return `nodes ${shortened(nodes)}: no number of nodes: one to nine decimal digits`;
  const fault = isKept ? "" : faultOfClaimed(claimed, order !== "");
  return fault || (order ? faultOfOrder(wordsOfOrder(order), it) : faultOfClaim(Number(nodes), it));
}

// ---- what is read

const wordsOfOrder = (text) => text.split(/[ \t,]+/).filter(Boolean);
const numbered = (words, it) => words.map((word) => it.inputs.includes(word) ? it.inputs.indexOf(word) : Number(word));

/** The columns that the first row names, or a fault. */
function columnsOf(cells) {
  const heads = cells.map((cell) => cell.toLowerCase());
  const twice = COLUMNS.find((it) => heads.indexOf(it) !== heads.lastIndexOf(it));
  if (twice) return {fault: `the column ${twice} stands twice`};
  const hasAll = heads.includes("name") && (heads.includes("nodes") || heads.includes("order"));
  return hasAll ? {heads} : {fault: `it names no columns ${NAMED}`};
}

/** What a row says: a result, or a fault. */
function resultOf(cells, heads, isKept) {
  if (cells.length > heads.length) return {fault: "more cells than columns; an order has blanks between its inputs"};
  const row = Object.fromEntries([...COLUMNS, ...KEPT].map((it) => [it, cells[heads.indexOf(it)] || ""]));
  if (!row.name) return {fault: "no name"};
  const it = byName.get(row.name);
  if (!it) return {fault: `no function is named ${shortened(row.name)}`};
  const fault = faultOf(row, it, isKept);
  if (fault) return {fault: `${row.name}: ${fault}`};
  const late = isLate(row.order || row.nodes), order = late || !row.order ? null : numbered(wordsOfOrder(row.order), it);
  return {result: {
    name: it.name, order, nodes: late || !row.nodes ? null : Number(row.nodes), own: null, start: startOf(row.start),
    label: (row.start || "file").toLowerCase(), isClaimed: !late && !order && !(isKept && row.counted === "1"),
    seconds: row.seconds ? Number(row.seconds) : null,
  }};
}

/** The results of a text, and what is wrong with it. The first row names the columns. */
function read(given, isKept = false) {
  const results = [], faults = [], text = given.replace(/^\ufeff+/, "").replace(/\r\n?/g, "\n");
  let heads = null;
  if (/^[ \t\n]*[[{]/.test(text)) return {results, faults: [`it is JSON; ${TAKEN}`]};
  for (const {line, cells, fault} of rowsOf(text)) {
    if (!fault && cells.every((it) => it === "")) continue;
    const said = fault ? {fault} : heads ? resultOf(cells, heads, isKept) : columnsOf(cells);
    if (said.fault) faults.push(`line ${line}: ${said.fault}`);
    else if (heads) results.push(said.result);
    if (!heads && said.fault) return {results, faults};
    heads = heads || said.heads;
  }
  if (!heads) faults.push(`line 1: ${columnsOf([]).fault}`);
  else if (!results.length && !faults.length) faults.push(`there are no results; the first line of CSV names the columns: ${NAMED}`);
  return {results, faults};
}

/** Results that are counted, as a text that the browser keeps. */
const textOf = (results) => [KEPT.join(), ...results.map(({name, nodes, label, isClaimed, seconds}) =>
  [name, nodes ?? "late", label, Number(nodes !== null && !isClaimed), seconds ?? ""].join())].join("\n");

/** What is said of a file that is refused. */
function refusal(name, faults) {
  const more = faults.length > MOST_FAULTS ? `\nand ${faults.length - MOST_FAULTS} more` : "";
  return {text: `${name} is refused:\n${faults.slice(0, MOST_FAULTS).join("\n")}${more}`, isFault: true};
}
