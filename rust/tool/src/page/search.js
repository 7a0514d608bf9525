"use strict";
// The search box appears only where scripts run; without them all rows stand there.
const find = document.getElementById("find");
const rows = Array.from(document.querySelectorAll("[data-find]"));
document.getElementById("search").hidden = false;
find.addEventListener("input", () => {
  const words = find.value.toLowerCase().split(/\s+/).filter((word) => word !== "");
  let count = 0;
  for (const row of rows) {
    row.hidden = !words.every((word) => row.dataset.find.includes(word));
    count += row.hidden ? 0 : 1;
  }
  document.getElementById("found").textContent = words.length === 0 ? "" : count + " found";
});
