// Hides the rows of requests that the choices above the table leave out; without it all are shown.
"use strict";
const form = document.querySelector("form.filter");
const rows = [...document.querySelectorAll("tr[data-bond]")];
const isLeft = row => [...form.querySelectorAll("select")].every(
  one => !one.value || row.dataset[one.name].split(" ").includes(one.value));
const hide = () => {
  for (const row of rows) row.hidden = !isLeft(row);
  form.querySelector("output").textContent =
    rows.filter(row => !row.hidden).length + " of " + rows.length;
};
form.hidden = false;
form.addEventListener("change", hide);
hide();
