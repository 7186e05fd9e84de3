/* The sections and their tabs, the colours, and the keys of the whole page. */
const KEYS = [
  ["j, k", "the next item or structure, the one before"], ["↑ ↓ ← →", "move in the list, in a tree, among variables, tags and classes"],
  ["Enter, Space", "fold or unfold a node, a matrix or a type; choose a class; pin a tag"], ["/", "to the filter, or the search for a type"],
  ["n, p", "the next reading, or the next type found; the one before"], ["m", "trees, meanings, both"], ["g", "a meaning as table, as graph, as text"],
  ["s", "readings one below the other, or side by side"], ["l", "lists long or short"], ["f, +, -, 0", "as wide as the page, larger, smaller, as it was"],
  ["1, 2, 3", "items, structures, types"], ["d", "colours: system, dark, light"], ["?", "these keys"], ["Esc", "leave the filter; close this"],
];

function start() {
  const read = (id) => document.getElementById(id).textContent;
  const head = JSON.parse(read("data-head")), items = read("data-items"), structures = JSON.parse(read("data-structures")), types = JSON.parse(read("data-types"));
  const main = document.getElementById("main"), tabs = document.getElementById("tabs"), sections = [];
  main.replaceChildren();
  const add = (name, section) => {
    const tab = make("button", { type: "button", role: "tab", "aria-controls": section.id, "data-tab": section.id, click: () => show(section) }, name);
    section.tab = tab;
    sections.push(section);
    main.append(section);
    tabs.append(tab);
  };
  let current = null;
  const show = (section) => {
    current = section;
    for (const one of sections) {
      one.hidden = one !== section;
      one.tab.setAttribute("aria-selected", String(one === section));
    }
    if (section.shown) section.shown();
  };
  if (items) add("Items", itemsSection(head, items));
  if (structures.length) add("Structures", structuresSection(structures));
  if (types) add("Types", typesSection(types));
  tabs.hidden = sections.length < 2;
  if (sections.length) show(sections[0]);
  else main.append(make("p", { class: "note" }, "There is nothing to show."));
  colours();
  help();
  document.addEventListener("keydown", (event) => {
    if (event.ctrlKey || event.altKey || event.metaKey || event.defaultPrevented) return;
    const isField = event.target.matches("input, select, textarea");
    if (event.key === "Escape" && isField) event.target.blur();
    if (isField || document.getElementById("help").open) return;
    if (event.key === "?") document.getElementById("help").showModal();
    else if (event.key === "d") document.getElementById("theme").click();
    else if (/^[1-3]$/.test(event.key) && sections[event.key - 1]) show(sections[event.key - 1]);
    else if (!current || !current.keys(event.key)) return;
    event.preventDefault();
  });
  document.documentElement.dataset.ready = "yes";
}

/* The colours follow the system, until the switch says otherwise. */
function colours() {
  const button = document.getElementById("theme"), names = ["system", "dark", "light"];
  let at = 0;
  try { at = Math.max(0, names.indexOf(localStorage.getItem("lkb-colours"))); } catch (refused) { at = 0; }
  const apply = () => {
    if (at) document.documentElement.dataset.theme = names[at];
    else delete document.documentElement.dataset.theme;
    button.textContent = "Colours: " + names[at];
  };
  button.addEventListener("click", () => {
    at = (at + 1) % names.length;
    try { localStorage.setItem("lkb-colours", names[at]); } catch (refused) { inform("the colours can't be kept"); }
    apply();
  });
  apply();
}

function help() {
  const dialog = document.getElementById("help");
  dialog.append(make("h2", {}, "Keys"), make("table", {}, make("tbody", {}, KEYS.map(([keys, what]) => make("tr", {}, make("td", {}, keys.split(", ").map((key) => [make("kbd", {}, key), " "])), make("td", {}, what))))),
    make("form", { method: "dialog" }, make("button", { autofocus: true }, "Close")));
  document.getElementById("help-button").addEventListener("click", () => dialog.showModal());
}

start();
