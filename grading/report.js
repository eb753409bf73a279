"use strict";
const verdicts = [...document.querySelectorAll(".legend button")];

/* Sorts a table by the column of a head: names from A on, numbers from the greatest on, and then the other way. */
function sort(head) {
    const at = head.cellIndex, body = head.closest("table").tBodies[0], was = head.getAttribute("aria-sort");
    const text = row => row.cells[at].textContent, value = row => parseFloat(text(row)) || 0, rows = [...body.rows];
    const isText = at === 0 || !rows.some(value), isUp = was ? was === "descending" : isText;
    const compare = (one, other) => isText ? text(one).localeCompare(text(other)) : value(one) - value(other);
    rows.sort((one, other) => compare(one, other) * (isUp ? 1 : -1));
    [...head.parentNode.cells].forEach(each => each.removeAttribute("aria-sort"));
    head.setAttribute("aria-sort", isUp ? "ascending" : "descending");
    body.append(...rows);
}

/* Shows the students who have one of the verdicts that are pressed, and these in colour; all where none is. */
function press(button) {
    button.setAttribute("aria-pressed", button.getAttribute("aria-pressed") !== "true");
    const wanted = verdicts.filter(each => each.matches("[aria-pressed=true]")).map(each => each.dataset.verdict);
    const isOther = mark => wanted.length > 0 && !wanted.includes(mark.dataset.verdict);
    for (const row of document.querySelector("tbody").rows) {
        const marks = [...row.querySelectorAll("[data-verdict]")];
        marks.forEach(mark => mark.classList.toggle("other", isOther(mark)));
        row.hidden = marks.every(isOther);
    }
}

document.querySelectorAll("thead button").forEach(each => each.addEventListener("click", () => sort(each.parentNode)));
verdicts.forEach(each => each.addEventListener("click", () => press(each)));
