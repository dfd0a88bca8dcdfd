"use strict";
// The rows of a text of CSV, by the rules of minorder-score. Blanks are spaces and tabs; other white space is a letter.
const BLANKS = " \t";

/** A text without the blanks around it. */
function stripped(text) {
  let from = 0, to = text.length;
  while (from < to && BLANKS.includes(text[from])) from += 1;
  while (from < to && BLANKS.includes(text[to - 1])) to -= 1;
  return text.slice(from, to);
}

/** What stands between cells: the first comma, semicolon or tab outside quotes. */
function separatorOf(text) {
  const found = text.replace(/"[^"]*"/g, "").replace(/^[ \t\n]+/, "").match(/[,;\t]/);
  return found ? found[0] : ",";
}

/** The row from a place on, with the place behind it: its cells, or why it can't be read. */
function rowAt(text, begin, separator, cell) {
  const cells = [];
  for (let at = begin; ; at += 1) {
    cell.lastIndex = at;
    const found = cell.exec(text);
    if (!found) return {end: text.length, fault: "no CSV: unexpected end of data"};
    const [whole, quoted, plain] = found;
    cells.push(stripped(quoted === undefined ? plain : quoted.replaceAll('""', '"')));
    at += whole.length;
    if (at === text.length || text[at] === "\n") return {end: at + 1, cells};
    if (text[at] !== separator) return {end: at + 1, fault: `no CSV: '${separator}' expected after '"'`};
  }
}

/** The rows of a text, each with the number of its last line; none behind one that can't be read. */
function* rowsOf(text) {
  const separator = separatorOf(text);
  const cell = new RegExp(` *(?:"([^"]*(?:""[^"]*)*)"(?!")|(?![ "])([^${separator}\n]*))`, "y");
  for (let at = 0, line = 0; at < text.length;) {
    const {end, cells, fault} = rowAt(text, at, separator, cell);
    line += text.slice(at, end - 1).split("\n").length;
    yield {line, cells, fault};
    at = fault ? text.length : end;
  }
}
