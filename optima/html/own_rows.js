"use strict";
// The rows and columns of the reader's own methods in the tables, and their list.

const cellOf = (text, order) => element("td", order === undefined ? {} : {"data-order": order}, String(text));

// before the methods of the league with the same mean, as its place is
const meanCell = (mean) => cellOf(mean.toFixed(3), mean * (1 - SAME));
const emptyCell = () => cellOf("", 1e9);

function worstCell(worst, hasLink) {
  const cell = cellOf(worst ? worst.ratio.toFixed(2) : "", worst ? worst.ratio : 1e9);
  if (worst && hasLink) cell.append(" (", element("a", {href: `#${worst.name}`}, worst.name), ")");
  return cell;
}

function cellsFromFile({has, mean, meanOfEnded, ended, worst, met, whole, late, seconds}) {
  if (!has) return Array.from({length: 6}, emptyCell);
  return [
    meanCell(mean), ended ? cellOf(`${meanOfEnded.toFixed(3)} of ${ended}`, meanOfEnded) : emptyCell(),
    worstCell(worst, true), cellOf(`${met} of ${whole}`, met), cellOf(late || "", late),
    seconds === null ? emptyCell() : cellOf(seconds.toFixed(1), seconds)];
}

function cellsFromRandom({has, mean, worst, runsMet}) {
  if (!has) return Array.from({length: 3}, emptyCell);
  return [meanCell(mean), worstCell(worst, false), cellOf(percentOf(runsMet), runsMet)];
}

/** A method's name in the league; under it how many of its sizes nobody counted. */
function nameCell(method) {
  const claims = claimsOf(method), note = claims ? element("span", {class: "claims"}, saidOfClaims(claims)) : null;
  return element("th", {scope: "row", "data-order": labelOf(method)}, element("span", {class: "name"}, labelOf(method)), note);
}

/** A row of the league, with the cells of the other rows. */
function leagueRow(method) {
  const row = element("tr", {class: "yours", "data-method": labelOf(method)}, nameCell(method));
  row.append(...cellsFromFile(standing(method, "file")), ...cellsFromRandom(standing(method, "randomStarts")));
  return row;
}

/** A column of the families behind their inputs. */
function addToFamilies(method) {
  const [headRow, ...rows] = field("families-table").rows, label = labelOf(method);
  headRow.insertBefore(element("th", {scope: "col", class: "yours", "data-key": label}, saidOf(method)), headRow.cells[3]);
  for (const row of rows) {
    const names = new Set(page.functions.filter((it) => it.family === row.cells[0].textContent).map((it) => it.name));
    const {ended, whole, meanOfEnded} = standing(method, "file", names), partly = ended < whole ? "*" : "";
    const cell = ended ? cellOf(meanOfEnded.toFixed(3) + partly, meanOfEnded) : emptyCell();
    cell.classList.add("yours");
    row.insertBefore(cell, row.cells[3]);
  }
}

/** Shows the reader's methods, and no others of theirs, in all tables and curves. */
function showOwn() {
  tables.league.rows(".yours").remove();
  for (const method of own()) tables.league.row.add(leagueRow(method));
  tables.league.draw();
  const columns = sortOf("families");
  tables.families.destroy();
  for (const cell of field("families-table").querySelectorAll(".yours")) cell.remove();
  for (const method of [...own()].reverse()) addToFamilies(method);
  makeTable("families", columns);
  listMethods();
  showMethod(labelOf(page.methods.includes(shownMethod.method) ? shownMethod.method : firstMethod));
  makeLeague();
  showAgain();
}

// ---- their list

/** What stands of a method from each start. */
function countsOf(method) {
  const found = STARTS.map(([start, from]) => [standing(method, start), from]).filter(([{has}]) => has);
  const counts = found.map(([{ended, whole}, from]) => `${ended} of ${whole} functions from ${from}`), claims = claimsOf(method);
  return [...counts, ...(claims ? [`${claims} only claimed`] : [])].join(", ");
}

function ownItem(method) {
  const name = element("input", {value: method.name, maxlength: MOST_LETTERS, "aria-label": "Name of the method"});
  const off = element("button", {type: "button"}, "Take off");
  const label = () => off.setAttribute("aria-label", `Take off ${method.name}`);
  name.addEventListener("change", () => { rename(method, name.value); name.value = method.name; label(); });
  off.addEventListener("click", () => takeOff(method));
  label();
  return element("li", {}, swatch(league.lines.find((it) => it.method === method)), name, off, countsOf(method));
}

const listOwn = () => field("own").replaceChildren(...own().map(ownItem));
