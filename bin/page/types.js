/* The type hierarchy: from the top at the left to subtypes at the right. Each type is drawn once, beside its first supertype;
   dashed lines lead to it from its other ones. It can be searched, folded and moved about. */
const LINE = 24, COLUMN = 46;

function readTypes(list) {
  const types = new Map(list.map(([name, above], at) => [name, { name, above: [], below: [], daughters: [], seconds: [], open: false, at, said: above }]));
  for (const one of types.values()) {
    one.above = one.said.map((name) => types.get(name));
    one.above.forEach((supertype, k) => {
      supertype.below.push(one);
      (k === 0 ? supertype.daughters : supertype.seconds).push(one);
    });
    one.mother = one.above[0] || null;
    one.added = /^glbtype\d+$/.test(one.name);
  }
  return types;
}

/* Opens levels from the top as long as not too much is shown. */
function openSome(root, most) {
  let front = [root], shown = 1;
  while (front.length) {
    const next = front.flatMap((one) => one.daughters);
    if (shown + next.length > most && front[0] !== root) break;
    front.forEach((one) => { one.open = true; });
    shown += next.length;
    front = next;
  }
}

function placeTypes(root) {
  const nodes = inOrder(root), columns = [];
  let row = 0;
  root.level = 0;
  for (const one of nodes) for (const below of shownDaughters(one)) below.level = one.level + 1;
  for (const one of nodes) {
    one.w = wide(one.name, (one.added ? "italic " : "") + "13px") + 12;
    columns[one.level] = Math.max(columns[one.level] || 0, one.w);
  }
  const lefts = [0];
  columns.forEach((width, level) => lefts.push(lefts[level] + width + COLUMN));
  for (let at = 0; at < nodes.length; at++) if (!shownDaughters(nodes[at]).length) nodes[at].row = row++;
  for (let at = nodes.length - 1; at >= 0; at--) {
    const below = shownDaughters(nodes[at]);
    if (below.length) nodes[at].row = (below[0].row + below[below.length - 1].row) / 2;
  }
  for (const one of nodes) {
    one.x = lefts[one.level];
    one.y = one.row * LINE;
  }
  return { nodes, width: lefts[columns.length] - COLUMN + 60, height: row * LINE };
}

function typesSection(list) {
  const types = readTypes(list), root = types.values().next().value;
  const box = frame("types-frame", "type hierarchy; drag to move it", null);
  const input = make("input", { type: "search", id: "find-type", placeholder: "Find a type", "aria-label": "find a type" });
  const count = make("p", { class: "count", role: "status", id: "types-count" }), about = make("div", { class: "about" });
  const state = { types, root, box, input, count, about, scale: 1, chosen: root, found: [], at: -1 };
  openSome(root, 70);
  const button = (text, label, click) => make("button", { type: "button", title: label, "aria-label": label, click }, text);
  const bar = make("div", { class: "bar" },
    make("span", { class: "group" }, make("span", { class: "name" }, "Unfold"), button("some", "the upper levels", () => { foldTypes(state, false); openSome(root, 70); redrawTypes(state); }), button("all", "all types", () => { foldTypes(state, true); redrawTypes(state); }), button("one", "what stands right below the top", () => { foldTypes(state, false); root.open = true; redrawTypes(state); })),
    make("span", { class: "group" }, button("−", "smaller", () => zoomTypes(state, 1 / 1.2)), button("+", "larger", () => zoomTypes(state, 1.2)), button("1:1", "as it was", () => zoomTypes(state, 0))));
  const section = make("div", { class: "section types", id: "types", role: "tabpanel", "aria-label": "types" },
    make("div", { class: "side" }, make("div", { class: "tools" }, input, make("div", { class: "chips" }, button("next ↵", "next type found", () => nextFound(state, 1)), button("back", "type found before", () => nextFound(state, -1))), count), about),
    make("div", { class: "stage" }, bar, box));
  input.addEventListener("input", () => findTypes(state));
  input.addEventListener("keydown", (event) => { if (event.key === "Enter") nextFound(state, event.shiftKey ? -1 : 1); });
  panning(box);
  section.keys = (key) => {
    if (key === "/") input.focus();
    else if (key === "n" || key === "p") nextFound(state, key === "n" ? 1 : -1);
    else if (key === "+" || key === "-" || key === "0") zoomTypes(state, { "+": 1.2, "-": 1 / 1.2, 0: 0 }[key]);
    else return false;
    return true;
  };
  section.shown = () => {
    redrawTypes(state);
    if (state.chosen === root && root.open) box.scrollTo(0, Math.max(0, root.y - box.clientHeight / 2));
  };
  section.state = state;
  findTypes(state);
  return section;
}

function foldTypes(state, open) {
  for (const one of state.types.values()) one.open = open;
}

function zoomTypes(state, factor) {
  state.scale = factor === 0 ? 1 : Math.min(3, Math.max(.1, state.scale * factor));
  redrawTypes(state);
}

function redrawTypes(state, focus) {
  const { nodes, width, height } = placeTypes(state.root), shown = new Set(nodes), lines = [], seconds = [];
  for (const one of nodes) {
    for (const below of shownDaughters(one)) lines.push(elbow(one, below));
    for (const below of one.seconds) if (shown.has(below)) seconds.push(link(one, below));
  }
  const svg = sheet(width, height, "types-drawing", state.scale, draw("path", { class: "edges", d: lines.join("") }), draw("path", { class: "second", d: seconds.join("") }), nodes.map((one) => typeNode(one, state)));
  svg.setAttribute("role", "tree");
  svg.setAttribute("aria-label", "type hierarchy");
  Object.assign(svg.dataset, { shown: nodes.length, types: state.types.size, seconds: seconds.length });
  svg.addEventListener("click", (event) => {
    const hit = event.target.closest(".node");
    if (!hit || state.box.dataset.moved) return;
    if (event.target.closest(".fold")) foldType(state, hit.node);
    else choose(state, hit.node);
  });
  roving(svg, ".node", (here, key) => typeStep(state, here.node, key));
  state.box.replaceChildren(svg);
  state.stale = false;
  const there = shown.has(state.chosen) ? state.chosen : state.root;
  there.drawn.setAttribute("tabindex", "0");
  if (focus) there.drawn.focus({ preventScroll: true });
  aboutType(state);
}

function elbow(from, to) {
  const x = from.x + from.w + 18;
  return `M${round(x)} ${round(from.y + LINE / 2)}H${round(x + 12)}V${round(to.y + LINE / 2)}H${round(to.x)}`;
}

function link(from, to) {
  const x = from.x + from.w + (from.daughters.length ? 18 : 2), y = from.y + LINE / 2, u = to.x, v = to.y + LINE / 2;
  const bend = Math.max(16, Math.abs(u - x) / 2);
  return `M${round(x)} ${round(y)}C${round(x + bend)} ${round(y)} ${round(u - bend)} ${round(v)} ${round(u)} ${round(v)}`;
}

function typeNode(one, state) {
  const folds = one.daughters.length > 0;
  one.drawn = draw("g", {
    class: "node" + (one.added ? " added" : "") + (state.found.includes(one) ? " found" : "") + (one === state.chosen ? " chosen" : ""), transform: `translate(${round(one.x)} ${round(one.y)})`, role: "treeitem", tabindex: "-1",
    "aria-level": one.level + 1, "aria-expanded": folds ? String(one.open) : null, "aria-selected": String(one === state.chosen), "data-type": one.name,
    "aria-label": `${one.name}, ${plural(one.below.length, "subtype")}` + (one.above.length > 1 ? `, ${one.above.length} supertypes` : ""),
  },
  draw("rect", { class: "back", x: 0, y: 2, width: one.w, height: LINE - 4, rx: 4 }),
  draw("text", { x: 6, y: 17 }, one.name),
  folds ? draw("g", { class: "fold" }, draw("title", {}, one.open ? "fold" : `unfold ${one.daughters.length}`), draw("circle", { cx: one.w + 9, cy: LINE / 2, r: 7 }), draw("text", { x: one.w + 9, y: LINE / 2 + 3.5, "text-anchor": "middle" }, one.open ? "−" : "+")) : null);
  one.drawn.node = one;
  return one.drawn;
}

function foldType(state, one) {
  const before = one.drawn.getBoundingClientRect();
  one.open = !one.open;
  state.chosen = one;
  redrawTypes(state, true);
  const after = one.drawn.getBoundingClientRect();
  state.box.scrollBy(after.left - before.left, after.top - before.top);
}

function choose(state, one) {
  let stale = state.stale || !one.drawn || !one.drawn.isConnected;
  for (let above = one.mother; above; above = above.mother) {
    stale = stale || !above.open;
    above.open = true;
  }
  const before = state.chosen;
  state.chosen = one;
  if (stale) redrawTypes(state, true);
  else {
    for (const other of [before, one]) {
      other.drawn.classList.toggle("chosen", other === one);
      other.drawn.setAttribute("aria-selected", String(other === one));
    }
    moveFocus(state.box, ".node", one.drawn);
    aboutType(state);
  }
  const { box } = state, at = one.drawn.getBoundingClientRect(), seen = box.getBoundingClientRect();
  if (at.left < seen.left || at.right > seen.right || at.top < seen.top || at.bottom > seen.bottom) {
    box.scrollBy((at.left + at.right) / 2 - (seen.left + seen.right) / 2, (at.top + at.bottom) / 2 - (seen.top + seen.bottom) / 2);
  }
}

function typeStep(state, one, key) {
  const rows = inOrder(state.root), at = rows.indexOf(one);
  if (key === "Enter" || key === " ") {
    if (one.daughters.length) foldType(state, one);
    return one.drawn;
  }
  if (key === "ArrowRight" && one.daughters.length && !one.open) {
    foldType(state, one);
    return one.drawn;
  }
  if (key === "ArrowLeft" && one.open && one.daughters.length) {
    foldType(state, one);
    return one.drawn;
  }
  const there = { ArrowUp: rows[at - 1], ArrowDown: rows[at + 1], ArrowLeft: one.mother, ArrowRight: one.daughters[0], Home: state.root, End: rows[rows.length - 1] }[key];
  if (there) choose(state, there);
  return there && there.drawn;
}

function findTypes(state) {
  const wanted = state.input.value.trim().toLowerCase();
  state.found = wanted === "" ? [] : [...state.types.values()].filter((one) => one.name.includes(wanted));
  state.found.sort((a, b) => (a.name === wanted ? -1 : 0) - (b.name === wanted ? -1 : 0) || a.at - b.at);
  state.at = -1;
  state.stale = true;
  state.count.textContent = wanted === "" ? plural(state.types.size, "type") : `${plural(state.found.length, "type")} of ${state.types.size} found`;
  state.count.dataset.found = state.found.length;
  if (state.found.length) nextFound(state, 1, true);
  else if (state.root.drawn) redrawTypes(state);
}

function nextFound(state, move, stay) {
  if (!state.found.length) return;
  state.at = (state.at + move + state.found.length) % state.found.length;
  choose(state, state.found[state.at]);
  if (stay || document.activeElement !== state.input) state.input.focus();
  state.count.textContent = `${state.at + 1} of ${state.found.length} found, of ${plural(state.types.size, "type")}`;
}

function aboutType(state) {
  const one = state.chosen;
  const links = (list) => make("div", { class: "links" }, list.map((other) => make("button", { type: "button", click: () => choose(state, other) }, other.name)));
  const all = new Set(), left = [...one.below];
  while (left.length) {
    const other = left.pop();
    if (!all.has(other)) {
      all.add(other);
      left.push(...other.below);
    }
  }
  state.about.replaceChildren(make("h3", { style: "overflow-wrap:anywhere" }, one.name),
    make("p", { class: "note" }, one.added ? "A type that was added, so that two types have one greatest common subtype." : `${plural(all.size, "type")} below it in all.`),
    make("h4", {}, "Supertypes"), one.above.length ? links(one.above) : make("p", { class: "note" }, "none: it is the top"),
    make("h4", {}, plural(one.below.length, "subtype")), links(one.below));
}

/* Moves what a frame shows with the pointer. */
function panning(box) {
  let from = null;
  box.addEventListener("pointerdown", (event) => {
    if (event.button !== 0) return;
    from = { x: event.clientX, y: event.clientY, left: box.scrollLeft, top: box.scrollTop };
    delete box.dataset.moved;
  });
  box.addEventListener("pointermove", (event) => {
    if (!from) return;
    const x = event.clientX - from.x, y = event.clientY - from.y;
    if (!box.dataset.moved && Math.hypot(x, y) < 5) return;
    if (!box.dataset.moved) box.setPointerCapture(event.pointerId);
    box.dataset.moved = "yes";
    box.classList.add("moving");
    box.scrollTo(from.left - x, from.top - y);
  });
  for (const name of ["pointerup", "pointercancel"]) {
    box.addEventListener(name, () => {
      from = null;
      box.classList.remove("moving");
      setTimeout(() => delete box.dataset.moved, 0);
    });
  }
}
