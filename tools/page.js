// Filters and links of the page that tools/show writes. A choice opens the folds in which it leaves a row; a link opens those around its target.
const all = (selector) => [...document.querySelectorAll(selector)];
const rows = all(".row"), groups = all(".group"), nodes = all("[id^=node-]"), picks = all("[name=pick]");
// As the page came.
const unfolded = groups.filter((group) => group.open);
const search = document.getElementById("find"), none = document.getElementById("none");

// The nodes that a word means, by number or by a part of their name; none for no word.
function meant(word) {
  if (word === "") return null;
  const named = (node) => node.querySelector(".name")?.textContent.toLowerCase().includes(word);
  return new Set(nodes.filter((node) => node.id === "node-" + word || named(node)).map((node) => node.id.slice(5)));
}

function filter() {
  const pick = picks.find((one) => one.checked).value, wanted = meant(search.value.trim().toLowerCase());
  const stays = (row) => (pick === "" || row.classList.contains(pick))
    && (wanted === null || row.dataset.nodes.split(" ").some((node) => wanted.has(node)));
  for (const row of rows) row.classList.toggle("away", !stays(row));
  for (const group of groups) {
    const left = group.querySelector(".row:not(.away)") !== null;
    group.classList.toggle("away", !left);
    group.open = pick === "" && wanted === null ? unfolded.includes(group) : left;
  }
  none.hidden = rows.some((row) => !row.classList.contains("away"));
}

// Shows what the address names, wherever it is folded or filtered away.
function reveal() {
  const target = document.getElementById(location.hash.slice(1));
  if (target === null) return;
  if (target.closest(".away")) {
    search.value = "";
    picks[0].checked = true;
    filter();
  }
  for (let one = target.parentElement; one !== null; one = one.parentElement) if (one.tagName === "DETAILS") one.open = true;
  target.scrollIntoView({ block: "center" });
}

if (search !== null) {
  search.closest("[hidden]").hidden = false;
  search.oninput = filter;
  for (const pick of picks) pick.onchange = filter;
}
onhashchange = reveal;
// A link that is followed twice changes no address.
onclick = (event) => event.target.closest("a[href^='#']") && setTimeout(reveal);
reveal();
