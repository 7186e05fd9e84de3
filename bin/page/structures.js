/* Structures: attribute-value matrices with tags, drawn from the lines of `expand`. */
function readStructure(lines) {
  const at = new Map();
  let root = null, tag = 0;
  for (const [path, type, first] of lines) {
    let node;
    if (first !== null) {
      node = at.get(first);
      node.tag = node.tag || ++tag;
      node.places++;
    } else {
      node = { path, type, features: [], tag: 0, places: 1, open: true };
      at.set(path, node);
    }
    if (!root) root = node;
    else {
      const cut = path.lastIndexOf("."), above = at.get(path.slice(0, cut) || ".");
      above.features.push({ name: path.slice(cut + 1), node, again: first !== null });
    }
  }
  numberTags(root);
  return root;
}

/* Tags are numbered in the order in which they are met from above. */
function numberTags(root) {
  let number = 0;
  const left = [root];
  while (left.length) {
    const node = left.pop();
    if (node.tag) node.tag = ++number;
    left.push(...node.features.filter((one) => !one.again).map((one) => one.node).reverse());
  }
}

const ROW = 20;

/* The elements of a list of FIRST and REST, and what stands at its end; null where it isn't one. A tag on a rest ends it. */
function listOf(node) {
  const parts = [];
  let here = node, again = false;
  const isCell = (one) => one.features.length === 2 && one.features[0].name === "FIRST" && one.features[1].name === "REST";
  while (isCell(here) && !again && (here === node || !here.tag)) {
    parts.push(here.features[0]);
    again = here.features[1].again;
    here = here.features[1].node;
  }
  return parts.length ? { parts, end: { node: here, again } } : null;
}

/* Measures a node: a block has w, h, and what it draws. */
function block(node, again, view) {
  const tagged = node.tag ? wide(String(node.tag), "600 11px") + 10 : 0;
  const front = tagged ? tagged + 5 : 0;
  if (again) return { node, tagged, w: tagged, h: ROW, again };
  const isText = node.type.startsWith('"');
  const list = view.lists && !isText ? listOf(node) : null;
  const head = wide(node.type, isText ? "600 13px" : "italic 13px");
  if (!node.features.length) return { node, tagged, front, w: front + head, h: ROW, isText };
  if (!node.open) {
    const text = `${node.type} ▸ ${node.features.length}`;
    return { node, tagged, front, w: front + wide(text, "italic 13px") + 16, h: ROW, folded: text };
  }
  if (list) return listBlock(node, list, tagged, front, view);
  const rows = node.features.map((one) => ({ name: one.name, w: wide(one.name, "12px") * 1.03, value: block(one.node, one.again, view) }));
  const column = Math.max(...rows.map((row) => row.w)) + 10;
  const inner = Math.max(head, ...rows.map((row) => column + row.value.w));
  return { node, tagged, front, head, rows, column, w: front + inner + 22, h: ROW + rows.reduce((sum, row) => sum + row.value.h + 3, 0) + 6 };
}

function listBlock(node, list, tagged, front, view) {
  const parts = list.parts.map((one) => block(one.node, one.again, view));
  const end = list.end.node, shut = !list.end.again && !end.tag && !end.features.length && /null|e-?list|nil/.test(end.type);
  if (!shut) parts.push(block(end, list.end.again, view));
  return { node, tagged, front, parts, bar: !shut, w: front + Math.max(...parts.map((one) => one.w)) + 38, h: parts.reduce((sum, one) => sum + one.h + 3, 0) + 6 };
}

function drawBlock(part, x, y, view) {
  const { node } = part, made = [];
  if (part.tagged) made.push(tagDrawing(node, x, y + 14, part.tagged, part.again, view));
  if (part.again) return made;
  const left = x + (part.front || 0);
  view.count++;
  if (part.rows || part.parts || part.folded) {
    const toggle = () => { node.open = !node.open; view.redraw(node.path); };
    const folder = (text, kind, u, v, label) => draw("g", { class: "folder", tabindex: "-1", role: "button", "data-path": node.path, "aria-expanded": String(node.open), "aria-label": label, click: toggle, keydown: (event) => { if (event.key === "Enter" || event.key === " ") { event.preventDefault(); toggle(); } } },
      draw("rect", { x: u - 2, y: v - 14, width: wide(text, "italic 13px") + 4, height: 18, fill: "transparent" }), draw("text", { class: kind, x: u, y: v }, text));
    if (part.folded) {
      made.push(folder("[ " + part.folded + " ]", "type", left, y + 14, `${node.type}, folded`));
      return made;
    }
    if (part.rows) {
      made.push(brackets(left, y, part.w - (part.front || 0), part.h, 6), folder(node.type, "type", left + 10, y + 16, `${node.type}, ${plural(part.rows.length, "feature")}`));
      let v = y + ROW + 3;
      for (const row of part.rows) {
        made.push(draw("text", { class: "feature", x: left + 10, y: v + 14 }, row.name), ...drawBlock(row.value, left + 10 + part.column, v, view));
        v += row.value.h + 3;
      }
      return made;
    }
    made.push(angles(left, y, part.w - (part.front || 0), part.h));
    let v = y + 4;
    part.parts.forEach((one, at) => {
      if (part.bar && at === part.parts.length - 1) made.push(draw("text", { class: "type", x: left + 12, y: v + 14 }, "|"));
      made.push(...drawBlock(one, left + 19, v, view));
      v += one.h + 3;
    });
    return made;
  }
  made.push(draw("text", { class: part.isText ? "string" : "type", x: left, y: y + 14 }, node.type));
  return made;
}

function tagDrawing(node, x, y, width, again, view) {
  const pin = () => {
    view.pinned = view.pinned === node.tag ? 0 : node.tag;
    for (const one of view.box.querySelectorAll(".tag")) one.classList.toggle("pinned", Number(one.dataset.tag) === view.pinned);
  };
  return draw("g", { class: "tag" + (view.pinned === node.tag ? " pinned" : ""), "data-tag": node.tag, "data-again": again ? "yes" : null, tabindex: "-1", role: "button", "aria-label": `tag ${node.tag}: ${node.places} places`, click: pin, keydown: (event) => { if (event.key === "Enter" || event.key === " ") { event.preventDefault(); pin(); } } },
    draw("title", {}, `${node.tag}: ${node.path}`), draw("rect", { x, y: y - 12, width, height: 16, rx: 2 }), draw("text", { x: x + width / 2, y, "text-anchor": "middle" }, String(node.tag)));
}

function brackets(x, y, w, h, lip) {
  return draw("path", { class: "bracket", d: `M${x + lip} ${y}H${x}V${y + h}H${x + lip}M${x + w - lip} ${y}H${x + w}V${y + h}H${x + w - lip}` });
}

function angles(x, y, w, h) {
  const lip = Math.min(10, h / 4);
  return draw("path", { class: "bracket", d: `M${x + lip} ${y}L${x} ${y + h / 2}L${x + lip} ${y + h}M${x + w - lip} ${y}L${x + w} ${y + h / 2}L${x + w - lip} ${y + h}` });
}

function structureView(lines) {
  const root = readStructure(lines), view = { lists: false, pinned: 0, count: 0, box: frame("structure-frame", "structure", null) };
  view.redraw = (focused) => {
    view.count = 0;
    const part = block(root, false, view);
    const svg = sheet(part.w, part.h, "structure-drawing", view.scale || 1, drawBlock(part, 0, 0, view));
    Object.assign(svg.dataset, { nodes: view.count, tags: svg.querySelectorAll(".tag[data-again]").length });
    roving(svg, ".folder, .tag", (here, key) => {
      const all = [...svg.querySelectorAll(".folder, .tag")], at = all.indexOf(here);
      return { ArrowDown: all[at + 1], ArrowRight: all[at + 1], ArrowUp: all[at - 1], ArrowLeft: all[at - 1], Home: all[0], End: all[all.length - 1] }[key];
    });
    view.box.replaceChildren(svg);
    const first = svg.querySelector(focused ? `.folder[data-path="${CSS.escape(focused)}"]` : ".folder, .tag");
    if (first) first.setAttribute("tabindex", "0");
    if (first && focused) first.focus();
  };
  view.foldAll = (depth) => {
    for (const [node, level] of allNodes(root)) node.open = level < depth;
    view.redraw();
  };
  view.zoom = (factor) => {
    view.scale = zoomed(view.box.firstChild, factor);
  };
  return view;
}

function* allNodes(root) {
  const left = [[root, 0]];
  while (left.length) {
    const [node, level] = left.pop();
    yield [node, level];
    left.push(...node.features.filter((one) => !one.again).map((one) => [one.node, level + 1]));
  }
}

function structuresSection(structures) {
  const list = make("ol", { class: "list", "aria-label": "structures" }), detail = make("section", { class: "detail", tabindex: "-1", "aria-label": "structure" });
  const rows = structures.map(([title, lines], at) => make("li", { "data-structure": at + 1 }, make("button", { type: "button", tabindex: at ? "-1" : "0", click: () => open(at) },
    make("span", { class: "number" }, String(at + 1)), make("span", { class: "said" }, title), make("span", { class: "badge" }, plural(lines.length, "line")))));
  list.append(...rows);
  let view = null, current = 0;
  function open(at) {
    current = at;
    rows.forEach((row, k) => { if (k === at) row.firstChild.setAttribute("aria-current", "true"); else row.firstChild.removeAttribute("aria-current"); });
    const [title, lines] = structures[at];
    forget(detail);
    detail.append(make("h2", {}, title));
    if (lines[0][1] === "unknown" && !lines[0][0].startsWith(".")) {
      detail.append(make("p", { class: "note" }, `The grammar has nothing of the name ${lines[0][0]}.`));
      return;
    }
    view = structureView(lines);
    const button = (text, label, click) => make("button", { type: "button", title: label, "aria-label": label, click }, text);
    view.redraw();
    detail.append(make("div", { class: "bar" },
      choice("Lists", [["long", "as FIRST and REST", "l"], ["short", "as ⟨ … ⟩", "l"]], "long", (value) => { view.lists = value === "short"; view.redraw(); }),
      make("span", { class: "group" }, make("span", { class: "name" }, "Fold"), button("all", "fold all but two levels", () => view.foldAll(2)), button("nothing", "unfold all", () => view.foldAll(Infinity))),
      make("span", { class: "group" }, zoomButtons(view.zoom))));
    detail.append(make("p", { class: "note" }, "A number in a box is a tag: where it stands alone, the value is the one that stands at its other place. Press a tag to see them all, a type to fold it."));
    detail.append(view.box);
    detail.append(make("details", {}, make("summary", {}, "As text"), make("pre", {}, lines.map(([path, type, first]) => (first === null ? `${path} ${type}` : `${path} = ${first}`)).join("\n"))));
    Object.assign(detail.dataset, { structure: at + 1, lines: lines.length });
  }
  roving(list, "button", (here, key) => {
    const at = rows.indexOf(here.parentNode), there = rows[at + ({ ArrowDown: 1, ArrowUp: -1 }[key] || NaN)];
    return there && there.firstChild;
  });
  const section = make("div", { class: "section structures", id: "structures", role: "tabpanel", "aria-label": "structures" }, make("div", { class: "side" }, list), detail);
  section.keys = (key) => {
    if (key === "j" || key === "k") {
      const next = current + (key === "j" ? 1 : -1);
      if (rows[next]) { open(next); moveFocus(list, "button", rows[next].firstChild); }
    } else if (key === "l") press(detail, "Lists");
    else if (view && "f+-0".includes(key)) view.zoom({ f: "fit", "+": 1.2, "-": 1 / 1.2, 0: 1 }[key]);
    else return false;
    return true;
  };
  open(0);
  return section;
}
