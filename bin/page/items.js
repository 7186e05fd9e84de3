/* The items: a list with a filter and counts, and the item that is open, with its readings. An item's body is read and drawn
   when it is opened, and a reading when it comes near the view. */
const KEPT = 0, GAINED = 1, LOST = 2, CHANGED = 3;
const MARKS = [null, ["gained", "+ gained"], ["lost", "− lost"], ["changed", "other meaning"]];

function itemsSection(head, text) {
  const items = text.split("\n").map((line) => {
    const at = line.indexOf("\t");
    return { row: JSON.parse(line.slice(0, at)), body: line.slice(at + 1) };
  });
  const list = make("ol", { class: "list", "aria-label": "items" });
  const detail = make("section", { class: "detail", tabindex: "-1", "aria-label": "item" });
  const count = make("p", { class: "count", id: "count", role: "status" });
  const input = make("input", { type: "search", id: "filter", placeholder: "Filter: words, or a number", "aria-label": "filter items" });
  const where = make("select", { id: "where", "aria-label": "where the filter looks" }, make("option", { value: "sentence" }, "in sentences"), make("option", { value: "body" }, "in trees and meanings"));
  const chips = make("div", { class: "chips", role: "group", "aria-label": "which items" });
  const state = { head, items, list, detail, count, input, where, group: "all", open: null, show: "trees", meaning: "table", order: "below" };
  items.forEach((item) => list.append(rowOf(item, state)));
  for (const [name, text, holds] of GROUPS) {
    const has = items.filter((item) => holds(item.row)).length;
    if (name === "all" || (has && has < items.length)) {
      chips.append(make("button", { type: "button", "data-group": name, "data-count": has, "aria-pressed": String(name === "all"), click: () => {
        state.group = name;
        for (const one of chips.children) one.setAttribute("aria-pressed", String(one.dataset.group === name));
        filter(state);
      } }, `${text} ${has}`));
    }
  }
  let timer = 0;
  input.addEventListener("input", () => { clearTimeout(timer); timer = setTimeout(() => filter(state), 80); });
  where.addEventListener("change", () => filter(state));
  list.addEventListener("click", (event) => {
    const hit = event.target.closest("button");
    if (hit) openItem(state, hit.parentNode.item);
  });
  roving(list, "button", (here, key) => {
    const go = { ArrowDown: 1, ArrowUp: -1 }[key], shown = shownItems(state);
    const at = shown.indexOf(here.parentNode.item);
    const there = go ? shown[at + go] : { Home: shown[0], End: shown[shown.length - 1] }[key];
    return there && there.element.firstChild;
  });
  const section = make("div", { class: "section items", id: "items", role: "tabpanel", "aria-label": "items" },
    make("div", { class: "side" }, make("div", { class: "tools" }, input, where, chips, count), list), detail);
  filter(state);
  section.state = state;
  section.keys = (key) => itemKeys(state, key);
  section.shown = () => { if (!state.open && items.length) openItem(state, items[0], false); };
  return section;
}

const refused = (row) => Boolean(row.r);
const GROUPS = [
  ["all", "all", () => true],
  ["one", "one reading", (row) => row.w === "readings" && row.k === 1],
  ["several", "several readings", (row) => row.w === "readings" && row.k > 1],
  ["none", "none", (row) => row.k === 0],
  ["refused", "refused", refused],
  ["unknown", "unknown words", (row) => row.u > 0],
  ["gained", "gained", (row) => row.gained > 0],
  ["lost", "lost", (row) => row.lost > 0],
  ["changed", "other meaning", (row) => row.changed > 0],
  ["same", "as expected", (row) => Boolean(row.b && row.b.said === "same")],
  ["differs", "not as expected", (row) => Boolean(row.b && row.b.said === "differs")],
  ["new", "new", (row) => Boolean(row.b && row.b.said === "new")],
  ["bad", "bad lines", (row) => Boolean(row.b && row.b.said === "bad")],
];

function told(row) {
  if (row.r) return row.r;
  if (row.k !== undefined) return row.w === "readings" ? String(row.k) : `${row.k} ${row.k === 1 ? row.w.replace(/s$/, "") : row.w}`;
  if (row.o !== undefined) return plural(row.o, "scope");
  if (row.b) return row.b.got === undefined ? row.b.bad : row.b.got;
  return row.c === undefined ? "" : plural(row.c, "class", "classes");
}

function badges(row) {
  const made = [];
  if (row.gained) made.push(make("span", { class: "badge gained", title: "gained" }, "+" + row.gained));
  if (row.lost) made.push(make("span", { class: "badge lost", title: "lost" }, "−" + row.lost));
  if (row.changed) made.push(make("span", { class: "badge changed", title: "other meaning" }, "≠" + row.changed));
  if (row.b && row.b.said !== "same") made.push(make("span", { class: "badge " + row.b.said }, row.b.said === "differs" ? `expected ${row.b.expected}` : row.b.said));
  if (row.u) made.push(make("span", { class: "badge lost", title: "unknown words" }, "?" + row.u));
  const text = told(row);
  if (text !== "") made.push(make("span", { class: "badge" + (row.k === 0 || row.r ? " zero" : ""), title: row.r ? "refused" : row.w }, text));
  return make("span", { class: "badges" }, made);
}

function said(row) {
  if (row.s) return make("span", { class: "said", title: row.s.length > 90 ? row.s : null }, row.s);
  return make("span", { class: "said none" }, row.s === "" ? "(an empty line)" : "(its line isn't known)");
}

function rowOf(item, state) {
  item.element = make("li", { "data-item": item.row.n }, make("button", { type: "button", tabindex: item.row.n === 1 ? "0" : "-1" },
    make("span", { class: "number" }, String(item.row.n)), said(item.row), badges(item.row)));
  item.element.item = item;
  return item.element;
}

function shownItems(state) {
  return state.items.filter((item) => !item.element.hidden);
}

function filter(state) {
  const wanted = state.input.value.trim().toLowerCase(), inBody = state.where.value === "body";
  const holds = GROUPS.find(([name]) => name === state.group)[2];
  let shown = 0;
  for (const item of state.items) {
    const text = inBody ? item.body : item.row.s || "";
    const fits = holds(item.row) && (wanted === "" || String(item.row.n) === wanted || text.toLowerCase().includes(inBody ? JSON.stringify(wanted).slice(1, -1).replaceAll("<", "\\u003c") : wanted));
    item.element.hidden = !fits;
    shown += fits;
  }
  const rows = state.items.map((item) => item.row), readings = rows.reduce((sum, row) => sum + (row.k || 0), 0);
  const what = rows.length && rows[0].k !== undefined ? `, ${readings.toLocaleString("en")} ${rows[0].w}` : "";
  state.count.textContent = `${shown} of ${plural(state.items.length, "item")} shown${what}`;
  Object.assign(state.count.dataset, { shown, items: state.items.length, readings });
}

function openItem(state, item, focus) {
  if (state.open) state.open.element.firstChild.removeAttribute("aria-current");
  state.open = item;
  const button = item.element.firstChild;
  button.setAttribute("aria-current", "true");
  if (focus !== false) moveFocus(state.list, "button", button);
  button.scrollIntoView({ block: "nearest" });
  showItem(state);
  state.detail.scrollTop = 0;
}

function itemKeys(state, key) {
  const shown = shownItems(state), at = shown.indexOf(state.open);
  if (key === "j" && shown[at + 1]) openItem(state, shown[at + 1]);
  else if (key === "k" && shown[Math.max(at, 1) - 1]) openItem(state, shown[Math.max(at, 1) - 1]);
  else if (key === "/") state.input.focus();
  else if (key === "s") press(state.detail, "Order");
  else if (key === "m") press(state.detail, "Show");
  else if (key === "g") press(state.detail, "Meaning as");
  else if (key === "n" || key === "p") nextReading(state, key === "n" ? 1 : -1);
  else if (key === "f" || key === "+" || key === "-" || key === "0") zoomAll(state, key);
  else return false;
  return true;
}

function nextReading(state, move) {
  const all = [...state.detail.querySelectorAll(".reading")];
  const at = all.indexOf(document.activeElement.closest(".reading"));
  const there = all[at < 0 ? 0 : Math.min(all.length - 1, Math.max(0, at + move))];
  if (!there) return;
  there.scrollIntoView({ block: "nearest", inline: "nearest" });
  there.focus();
}

function zoomAll(state, key) {
  const factor = { f: "fit", "+": 1.2, "-": 1 / 1.2, 0: 1 }[key];
  for (const one of state.detail.querySelectorAll(".reading")) if (one.zoom) one.zoom(factor);
}

function facts(row, head) {
  const made = [];
  const fact = (text, kind) => made.push(make("span", { class: "badge " + (kind || "") }, text));
  if (row.r) fact("refused: " + row.r, "lost");
  if (row.k !== undefined) fact(plural(row.k, row.w.replace(/s$/, "")));
  if (row.o !== undefined) fact(plural(row.o, "scope"));
  if (row.c !== undefined) fact(plural(row.c, "class", "classes"));
  if (row.was) fact("before: " + row.was, "changed");
  if (row.gained) fact("gained " + row.gained, "gained");
  if (row.lost) fact("lost " + row.lost, "lost");
  if (row.changed) fact("other meaning: " + row.changed, "changed");
  if (row.b) {
    const { said, expected, got, bad, trees } = row.b;
    fact(said === "bad" ? `bad line: ${bad}` : said === "new" ? `new: got ${got}` : said === "same" ? `as expected: ${got}` : `expected ${expected}, got ${got}`, said);
    if (trees) fact(`trees kept ${trees[0]}, lost ${trees[1]}, gained ${trees[2]}`, trees[1] || trees[2] ? "differs" : "");
  }
  return make("div", { class: "facts" }, made);
}

function showItem(state) {
  const { row, body: text } = state.open, body = JSON.parse(text), { detail } = state;
  forget(detail);
  detail.append(make("h2", {}, make("span", { class: "count" }, `${row.n}  `), row.s || ""), facts(row, state.head));
  const readings = (body.t || []).map(([tree, mrs, missing, mark, before, scopes]) => ({ tree, mrs, missing, mark, before, scopes }));
  if (readings.length) showReadings(state, readings);
  if (body.g) showSentences(detail, body.g);
  if (body.o) body.o.forEach(([, scopes]) => detail.append(scopesAlone(scopes)));
  if (body.e) detail.append(make("h3", {}, "Packed classes"), chartView(body.e, body.u || []));
  if (body.p) showWritten(state, body.p);
  if (!readings.length && !body.g && !body.e && !body.o) {
    detail.append(make("p", { class: "note" }, row.r ? `The line was refused: ${row.r}.` : row.k === 0 ? "No tree of the grammar spells this line." : "Nothing more is known of this item; the report of `parse` has its trees."));
  }
  Object.assign(detail.dataset, { item: row.n, readings: readings.length });
}

function scopesAlone(scopes) {
  if (scopes.f) return make("p", { class: "note" }, "refused: " + scopes.f);
  return make("ol", { "data-scopes": scopes.s.length }, scopes.s.map(([top, holes]) => make("li", { class: "formula" }, `top=${top} ` + holes.map(([hole, label]) => `${hole}=${label}`).join(" "))));
}

function showSentences(detail, sentences) {
  detail.append(make("h3", {}, "Sentences"), make("ol", { class: "sentences", "data-sentences": sentences.filter(([, mark]) => mark !== LOST).length }, sentences.map(([text, mark]) =>
    make("li", { "data-mark": mark }, text, MARKS[mark] ? [" ", make("span", { class: "mark " + MARKS[mark][0] }, MARKS[mark][1])] : null))));
}

function showWritten(state, written) {
  state.detail.append(make("h3", {}, "Trees that the profile has"));
  written.forEach((tree, at) => state.detail.append(readingCard(state, { tree, mark: KEPT }, at, written.length, null, "trees")));
}

/* The nodes that stand in some readings and not in all: by name and span. Asked of at most some megabytes of trees. */
function ownNodes(readings) {
  const trees = readings.filter((one) => one.tree);
  if (trees.length < 2 || trees.reduce((sum, one) => sum + one.tree.length, 0) > 2000000) return null;
  const counts = new Map(), key = (node) => `${node.name} ${node.from} ${node.to}`;
  for (const one of trees) for (const name of new Set(inOrder(readTree(one.tree)).map(key))) counts.set(name, (counts.get(name) || 0) + 1);
  return (node) => counts.get(key(node)) < trees.length;
}

function showReadings(state, readings) {
  const { detail } = state;
  const hasTrees = readings.some((one) => one.tree), hasMrs = readings.some((one) => one.mrs);
  const own = ownNodes(readings);
  const cards = make("div", { class: "readings", "data-readings": readings.length });
  const legend = make("p", { class: "note" }, "Nodes in bold and in another colour don't stand in all of these trees.");
  const redraw = () => {
    forget(cards);
    cards.classList.toggle("beside", state.order === "beside" && readings.length > 1);
    const show = !hasTrees ? "meanings" : !hasMrs ? "trees" : state.show;
    legend.hidden = !own || show === "meanings";
    readings.forEach((one, at) => cards.append(readingCard(state, one, at, readings.length, own, show)));
    if (cards.firstChild) drawNow(cards.firstChild);
  };
  const bar = make("div", { class: "bar" });
  if (hasTrees && hasMrs) bar.append(choice("Show", [["trees", "trees", "m"], ["meanings", "meanings", "m"], ["both", "both", "m"]], state.show, (value) => { state.show = value; redraw(); }));
  if (hasMrs) bar.append(choice("Meaning as", [["table", "table", "g"], ["graph", "graph", "g"], ["text", "text", "g"]], state.meaning, (value) => { state.meaning = value; if (state.show === "trees" && hasTrees) press(detail, "Show", "meanings"); else redraw(); }));
  if (readings.length > 1) bar.append(choice("Order", [["below", "one below the other", "s"], ["beside", "side by side", "s"]], state.order, (value) => { state.order = value; redraw(); }));
  if (bar.children.length) detail.append(bar);
  detail.append(legend, cards);
  redraw();
}

function readingCard(state, reading, at, count, own, show) {
  const mark = MARKS[reading.mark];
  const name = reading.tree ? `Reading ${at + 1} of ${count}` : "Meaning";
  const card = make("article", { class: "reading" + (mark ? " " + mark[0] : ""), "data-reading": at + 1, "data-mark": reading.mark, tabindex: "-1", "aria-label": name + (mark ? ", " + mark[0] : "") });
  const tools = make("span", { class: "group" });
  card.append(make("header", {}, make("h3", {}, name), mark ? make("span", { class: "mark " + mark[0] }, mark[1]) : null, make("span", { class: "push" }), tools));
  drawLater(card, () => {
    if (reading.tree && show !== "meanings") {
      card.tree = showTree(readTree(reading.tree), own, name);
      card.append(card.tree.box);
    }
    if (show !== "trees") meaning(card, state, reading);
    card.append(textOf(reading));
    card.zoom = (factor) => {
      if (card.tree) card.tree.zoom(factor);
      for (const svg of card.querySelectorAll(".handles")) zoomed(svg, factor);
      for (const svg of card.querySelectorAll(".scope-tree")) atRoot(svg, factor);
    };
    card.zoom("narrow");
    if (card.querySelector("svg")) tools.append(...zoomButtons(card.zoom));
  });
  return card;
}

function meaning(card, state, reading) {
  if (reading.missing) card.append(make("p", { class: "note" }, `No MRS: the structure has nothing at ${reading.missing}.`));
  if (!reading.mrs) return;
  const mrs = readMrs(reading.mrs), part = make("div", { class: "meaning", "data-eps": mrs.eps.length });
  if (state.meaning === "table") part.append(mrsTable(mrs));
  else if (state.meaning === "graph") part.append(make("h4", {}, "Handles"), handleGraph(mrs));
  else part.append(make("pre", {}, indented(reading.mrs)));
  if (reading.before) part.append(make("h4", {}, "Before"), state.meaning === "graph" ? handleGraph(readMrs(reading.before)) : state.meaning === "table" ? mrsTable(readMrs(reading.before)) : make("pre", {}, indented(reading.before)));
  if (reading.scopes && state.meaning !== "text") part.append(scopeView(mrs, reading.scopes));
  pins(part);
  card.append(part);
}

function indented(text) {
  return text.replace(/ (?=(?:INDEX|RELS|HCONS|ICONS): )/g, "\n  ").replace(/ \](?= \[ )(?! \[ [a-z] )/g, " ]\n         ");
}

function textOf(reading) {
  return make("details", {}, make("summary", {}, "As text"), reading.tree ? make("pre", { class: "as-tree" }, reading.tree) : null, reading.mrs ? make("pre", { class: "as-mrs" }, reading.mrs) : null);
}
