// Narrows the lists by what is typed: each word is looked for, without accents.
const plain = (text) => text.normalize("NFD").replace(/\p{M}/gu, "").toLowerCase();
const field = document.createElement("input");
field.type = "search";
field.placeholder = "name or code";
field.setAttribute("aria-label", "narrow the lists by a name or a code");
const nothing = document.createElement("p");
nothing.textContent = "nothing is called so";
nothing.setAttribute("role", "status");
nothing.hidden = true;
document.querySelector("header").append(field, nothing);
const rows = [...document.querySelectorAll("li")].map((row) => [row, plain(row.textContent)]);
field.addEventListener("input", () => {
  const words = plain(field.value).split(/\s+/);
  for (const [row, text] of rows) row.hidden = !words.every((word) => text.includes(word));
  for (const section of document.querySelectorAll("section"))
    section.hidden = !section.querySelector("li:not([hidden])");
  nothing.hidden = rows.some(([row]) => !row.hidden);
});
field.addEventListener("keydown", (event) => {
  const link = document.querySelector("li:not([hidden]) a");
  if (event.key === "Enter" && link) link.click();
});
