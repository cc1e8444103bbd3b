// Sorts and filters the table of the index. Without this script the table is complete, the worst
// rows first.
"use strict";
(() => {
  const table = document.querySelector("table.index");
  const body = table.tBodies[0];
  const rows = [...body.rows];
  const tools = document.querySelector(".tools");
  const text = tools.querySelector("input");
  const word = tools.querySelector("select");
  const shown = tools.querySelector("output");

  // Hides the rows that do not have the chosen verdict, or not the text in one of their cells.
  function filter() {
    const wanted = text.value.trim().toLowerCase();
    let count = 0;
    for (const row of rows) {
      row.hidden = (word.value !== "" && row.dataset.word !== word.value)
        || !row.textContent.toLowerCase().includes(wanted);
      count += row.hidden ? 0 : 1;
    }
    shown.value = `${count} of ${rows.length} configurations`;
  }

  // Returns what a column of a row is sorted by: a number if it has one, otherwise its text.
  function key(row, column) {
    const cell = row.cells[column];
    const value = cell.dataset.key ?? cell.textContent;
    return value !== "" && Number.isFinite(Number(value)) ? Number(value) : value;
  }

  function compare(one, other) {
    if (typeof one === "number" && typeof other === "number") return one - other;
    if (typeof one !== typeof other) return typeof one === "number" ? -1 : 1;
    return one.localeCompare(other, undefined, {numeric: true});
  }

  // Sorts by a column, up and then down. Equal rows keep the order in which the page came.
  function sort(heading, column) {
    const way = heading.getAttribute("aria-sort") === "ascending" ? -1 : 1;
    for (const each of table.tHead.rows[0].cells) each.removeAttribute("aria-sort");
    heading.setAttribute("aria-sort", way === 1 ? "ascending" : "descending");
    const order = rows.map((row, at) => [key(row, column), at, row]);
    order.sort((a, b) => way * compare(a[0], b[0]) || a[1] - b[1]);
    body.append(...order.map(each => each[2]));
  }

  [...table.tHead.rows[0].cells].forEach((heading, column) => {
    const button = document.createElement("button");
    button.type = "button";
    button.textContent = heading.textContent;
    button.addEventListener("click", () => sort(heading, column));
    heading.replaceChildren(button);
  });
  text.addEventListener("input", filter);
  word.addEventListener("change", filter);
  tools.hidden = false;
  filter();
})();
