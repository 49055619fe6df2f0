"use strict";
const at = (id) => document.getElementById(id);
const make = (name, text, looks) => Object.assign(document.createElement(name), { textContent: text, className: looks || "" });
const data = JSON.parse(at("data").textContent);
const lines = at("report").textContent.split("\n");

// The far end of each end of a cable, "VERTEX:PORT", with the cable's number and whether it is crossed backwards.
const far = new Map();
data.cables.forEach(([a, b], cable) => {
  far.set(a, { end: b, cable, back: false });
  far.set(b, { end: a, cable, back: true });
});

// The channels of a route, by the turns of its line of the report.
function follow(host, turns) {
  const way = [];
  let end = `${host}:0`;
  for (const turn of [...turns, null]) {
    const step = far.get(end);
    if (!step) break;
    way.push({ from: end, ...step });
    const [vertex, port] = step.end.split(":");
    end = `${vertex}:${Number(port) + turn}`;
  }
  return way;
}

const routes = new Map();
for (let line = data.routes; data.routes && line < lines.length && lines[line].startsWith("route "); line++) {
  const [, from, to, ...turns] = lines[line].split(" ");
  routes.set(`${from} ${to}`, { from, to, line: line + 1, way: follow(from, turns.map(Number)) });
}
const loads = data.cables.map(() => [0, 0]);
for (const { way } of routes.values()) for (const { cable, back } of way) loads[cable][Number(back)]++;
const most = Math.max(1, ...loads.flat());

// From cold over warm to hot.
function heat(load) {
  const share = load / most;
  const [low, high, part] = share < 0.5 ? ["cold", "warm", share * 2] : ["warm", "hot", share * 2 - 1];
  return `color-mix(in oklab, var(--${low}), var(--${high}) ${Math.round(100 * part)}%)`;
}

function paintLoads() {
  data.cables.forEach((_, cable) => {
    const wire = at(`c${cable}`).querySelector(".wire");
    const load = Math.max(...loads[cable]);
    const shows = at("loads").checked && routes.size > 0;
    wire.style.stroke = shows && !at(`c${cable}`).classList.contains("chosen") ? heat(load) : "";
    wire.style.strokeWidth = shows ? 1.1 + (3.4 * load) / most : "";
  });
  at("legend").hidden = routes.size === 0;
  at("legend").dataset.most = most === 1 ? "1 route" : `${most} routes`;
}

function markLine(line) {
  const mark = at("mark");
  mark.hidden = !line;
  at("line").textContent = line ? `line ${line}` : `${lines.length - 1} lines`;
  if (!line) return;
  mark.style.top = `${16 * (line - 1)}px`;
  at("sheet").scrollTop = Math.max(0, 16 * (line - 6));
}

function paintWay() {
  const route = routes.get(`${at("from").value} ${at("to").value}`);
  const over = at("over");
  over.replaceChildren();
  document.querySelectorAll(".vertex.on").forEach((it) => it.classList.remove("on"));
  for (const { from, end, cable, back } of route ? route.way : []) {
    const path = document.createElementNS("http://www.w3.org/2000/svg", "path");
    path.setAttribute("d", at(`c${cable}`).dataset[back ? "back" : "way"]);
    path.setAttribute("marker-end", "url(#head)");
    over.append(path);
    for (const it of [from, end]) at(`v_${it.split(":")[0]}`).classList.add("on");
  }
  at("way").textContent = route
    ? `${route.way.length} cables: ${route.way.map((it) => `${it.from}>${it.end}`).join(" ")}`
    : routes.size ? "no route" : "the report has no routes";
  markLine(route && route.line);
}

// The pairs whose routes cross a cable, in one direction.
function pairsOver(cable, back) {
  return [...routes.values()].filter(({ way }) => way.some((it) => it.cable === cable && it.back === back));
}

function choosePair(from, to) {
  at("from").value = from;
  at("to").value = to;
  paintWay();
  keep();
}

function fillPairs(cable, box) {
  const [a, b] = data.cables[cable];
  [[`${a} to ${b}`, false], [`${b} to ${a}`, true]].forEach(([title, back]) => {
    const found = pairsOver(cable, back);
    box.append(make("p", `${title}: ${found.length} pairs`));
    for (const { from, to } of found) {
      const button = make("button", `${from} › ${to}`);
      button.type = "button";
      button.tabIndex = -1;
      button.onclick = () => choosePair(from, to);
      box.append(button);
    }
  });
}

let chosen = null;
function chooseCable(cable) {
  if (chosen !== null) at(`c${chosen}`).classList.remove("chosen");
  chosen = cable;
  if (cable !== null) at(`c${cable}`).classList.add("chosen");
  paintLoads();
  keep();
}

function listCables() {
  const order = data.cables.map((_, cable) => cable);
  order.sort((a, b) => Math.max(...loads[b]) - Math.max(...loads[a]) || a - b);
  for (const cable of order) {
    const box = document.createElement("details");
    box.id = `d${cable}`;
    box.name = "cable";
    const head = document.createElement("summary");
    head.tabIndex = -1;
    const meter = make("span", "", "meter");
    const bar = document.createElement("i");
    const load = Math.max(...loads[cable]);
    bar.style.cssText = `width:${(100 * load) / most}%;background:${heat(load)}`;
    meter.append(bar);
    head.append(meter, make("span", data.cables[cable].join(" – ")), make("span", loads[cable].join(" · "), "count"));
    const pairs = make("div", "", "pairs");
    box.append(head, pairs);
    box.ontoggle = () => {
      if (box.open && !pairs.firstChild) fillPairs(cable, pairs);
      if (box.open) chooseCable(cable);
      else if (chosen === cable) chooseCable(null);
    };
    at("cables").append(box);
  }
}

function openCable(cable) {
  const box = at(`d${cable}`);
  box.open = true;
  at("cables").scrollTop = box.offsetTop - at("cables").offsetTop - 4;
}

const shown = new Set(data.kinds.filter((it) => it !== "ports"));
const MOST_LINES = 3000;
function listEvents() {
  const events = data.events.filter((it) => shown.has(it.kind));
  at("events").replaceChildren(
    ...events.slice(0, MOST_LINES).map(({ kind, line, report, says, means, pair }) => {
      const item = make("li", "", kind);
      const text = make("b", says);
      if (means) text.append(make("em", means));
      item.append(make("span", String(line)), text);
      item.title = `line ${line} of the text, line ${report} of the report`;
      item.tabIndex = -1;
      item.onclick = () => {
        if (pair) choosePair(...pair);
        markLine(report);
      };
      return item;
    }),
  );
  if (events.length) at("events").firstChild.tabIndex = 0;
  if (events.length > MOST_LINES) at("events").append(make("li", `and ${events.length - MOST_LINES} more`));
}

function listKinds() {
  for (const kind of data.kinds) {
    const count = data.events.filter((it) => it.kind === kind).length;
    const button = make("button", `${kind} ${count}`);
    button.type = "button";
    button.dataset.kind = kind;
    button.onclick = () => {
      if (!shown.delete(kind)) shown.add(kind);
      button.setAttribute("aria-pressed", shown.has(kind));
      listEvents();
      keep();
    };
    at("kinds").append(button);
  }
}

// What is chosen stands in the address, so that it can be kept and sent on.
function keep() {
  const said = { from: at("from").value, to: at("to").value };
  if (chosen !== null) said.cable = data.cables[chosen][0];
  if (at("find").value) said.find = encodeURIComponent(at("find").value);
  for (const id of ["loads", "ports"]) if (!at(id).checked) said[id] = "no";
  if ([...shown].sort().join() !== usual.sort().join()) said.lines = [...shown].join();
  if (asked.has("theme")) said.theme = document.documentElement.dataset.theme;
  if (zoom > 1) said.zoom = zoom.toFixed(2);
  asked = new URLSearchParams(Object.entries(said));
  try {
    history.replaceState(null, "", `#${Object.entries(said).map((it) => it.join("=")).join("&")}`);
  } catch { /* a page without an address of its own */ }
}

// One of a list's items is reached by Tab, and the others from it: up and down, and in a cable its pairs by left and right.
function arrows(list, items, act) {
  const reach = (it) => {
    list.querySelectorAll(`${items}[tabindex="0"]`).forEach((other) => { other.tabIndex = -1; });
    it.tabIndex = 0;
  };
  list.addEventListener("focusin", (event) => { if (event.target.matches(items)) reach(event.target); });
  list.onkeydown = (event) => {
    const all = [...list.querySelectorAll(items)];
    const here = all.indexOf(document.activeElement);
    const to = { ArrowDown: here + 1, ArrowUp: here - 1, Home: 0, End: all.length - 1 }[event.key];
    if (to !== undefined && all.length) {
      event.preventDefault();
      all[Math.max(0, Math.min(all.length - 1, to))].focus();
    } else if (event.key === "Enter" && here >= 0 && act) act(all[here]);
    else goAside(event);
  };
  if (list.querySelector(items)) reach(list.querySelector(items));
}

function goAside(event) {
  const step = { ArrowRight: 1, ArrowLeft: -1 }[event.key];
  const box = document.activeElement.closest("details[open]");
  if (!step || !box) return;
  event.preventDefault();
  const all = [box.querySelector("summary"), ...box.querySelectorAll("button")];
  all[Math.max(0, Math.min(all.length - 1, all.indexOf(document.activeElement) + step))].focus();
}

// The picture's size, 1 being the one that fits. What is at a place of the window, or in the middle, stays there.
let zoom = 1;
const MOST_ZOOM = 16;
function enlarge(to, x, y) {
  const stage = at("fabric");
  const picture = stage.querySelector("svg");
  const { left, top } = stage.getBoundingClientRect();
  const place = [x ?? left + stage.clientWidth / 2, y ?? top + stage.clientHeight / 2];
  const before = picture.getBoundingClientRect();
  const share = [(place[0] - before.left) / before.width, (place[1] - before.top) / before.height];
  zoom = Math.min(MOST_ZOOM, Math.max(1, to));
  stage.style.setProperty("--zoom", zoom);
  const after = picture.getBoundingClientRect();
  stage.scrollLeft += after.left + share[0] * after.width - place[0];
  stage.scrollTop += after.top + share[1] * after.height - place[1];
}

// The wheel enlarges where the pointer is; at the picture's least size it scrolls the page on.
function turnWheel(event) {
  if (zoom === 1 && event.deltaY > 0) return;
  event.preventDefault();
  enlarge(zoom * Math.exp(-event.deltaY / 400), event.clientX, event.clientY);
  keep();
}

// The mouse drags the picture; a finger does so by itself. What was dragged isn't clicked.
let dragged = null;
function drag(event) {
  const stage = at("fabric");
  const by = [event.clientX - dragged.x, event.clientY - dragged.y];
  if (!dragged.moved && Math.hypot(...by) < 5) return;
  dragged.moved = true;
  stage.classList.add("dragged");
  stage.scrollTo(dragged.left - by[0], dragged.top - by[1]);
}

function listenToMouse(stage) {
  stage.addEventListener("wheel", turnWheel, { passive: false });
  stage.onpointerdown = ({ button, pointerType, clientX: x, clientY: y }) => {
    if (button === 0 && pointerType === "mouse") dragged = { x, y, left: stage.scrollLeft, top: stage.scrollTop, down: true };
  };
  window.addEventListener("pointermove", (event) => { if (dragged && dragged.down) drag(event); });
  for (const end of ["pointerup", "pointercancel"]) {
    window.addEventListener(end, () => {
      if (dragged) dragged.down = false;
      stage.classList.remove("dragged");
    });
  }
  stage.addEventListener("click", (event) => { if (dragged && dragged.moved) event.stopPropagation(); dragged = null; }, true);
}

function listenToKeys(stage) {
  stage.onkeydown = (event) => {
    const to = { "+": zoom * 1.4, "=": zoom * 1.4, "-": zoom / 1.4, 0: 1 }[event.key];
    if (to === undefined || event.ctrlKey || event.metaKey) return;
    enlarge(to);
    keep();
  };
}

// The hosts and switches whose names have the text that is looked for; the one so called comes first.
const names = [...document.querySelectorAll(".vertex")].map((it) => it.id.slice(2));
let matches = [];
let next = 0;
function find() {
  const text = at("find").value.trim().toLowerCase();
  const rank = (it) => (it === text ? 0 : it.startsWith(text) ? 1 : 2);
  matches = text ? names.filter((it) => it.includes(text)).sort((a, b) => rank(a) - rank(b)) : [];
  next = 0;
  document.querySelectorAll(".vertex.found").forEach((it) => it.classList.remove("found"));
  for (const it of matches) at(`v_${it}`).classList.add("found");
  at("matches").textContent = text ? `${matches.length || "none"}` : "";
}

// Shows the next of them in the middle, and so large that its name can be read.
function showNext() {
  if (!matches.length) return;
  const stage = at("fabric");
  const vertex = at(`v_${matches[next++ % matches.length]}`).querySelector("rect");
  const high = vertex.getBoundingClientRect().height;
  if (high < 18) enlarge((zoom * 22) / high);
  const [box, room] = [vertex.getBoundingClientRect(), stage.getBoundingClientRect()];
  stage.scrollLeft += box.left + box.width / 2 - room.left - stage.clientWidth / 2;
  stage.scrollTop += box.top + box.height / 2 - room.top - stage.clientHeight / 2;
}

function theme(name) {
  document.documentElement.dataset.theme = name;
}

// What the address asks for.
let asked = new URLSearchParams(location.hash.slice(1));
const usual = [...shown];
function takeAddress() {
  asked = new URLSearchParams(location.hash.slice(1));
  theme(asked.get("theme") || (matchMedia("(prefers-color-scheme: dark)").matches ? "dark" : "light"));
  const host = (id, other) => (data.hosts.includes(asked.get(id)) ? asked.get(id) : other);
  at("from").value = host("from", data.hosts[0]);
  at("to").value = host("to", data.hosts[data.hosts.length - 1]);
  for (const id of ["loads", "ports"]) at(id).checked = asked.get(id) !== "no";
  at("fabric").classList.toggle("no-ports", !at("ports").checked);
  at("find").value = asked.get("find") || "";
  shown.clear();
  (asked.has("lines") ? asked.get("lines").split(",") : usual).forEach((it) => shown.add(it));
  for (const it of at("kinds").children) it.setAttribute("aria-pressed", shown.has(it.dataset.kind));
  listEvents();
  paintLoads();
  paintWay();
  find();
  const cable = data.cables.findIndex((it) => it.includes(asked.get("cable")));
  if (cable >= 0) openCable(cable);
  else if (chosen !== null) at(`d${chosen}`).open = false;
  enlarge(Number(asked.get("zoom")) || 1);
  if (matches.length) showNext();
}

function listenToBar() {
  for (const id of ["from", "to"]) at(id).onchange = () => choosePair(at("from").value, at("to").value);
  at("swap").onclick = () => choosePair(at("to").value, at("from").value);
  at("find").oninput = () => { find(); keep(); };
  at("find").onkeydown = (event) => { if (event.key === "Enter") { showNext(); keep(); } };
  at("loads").onchange = () => { paintLoads(); keep(); };
  at("ports").onchange = () => { at("fabric").classList.toggle("no-ports", !at("ports").checked); keep(); };
  [...at("zoom").children].forEach((it, number) => {
    it.onclick = () => { enlarge([zoom / 1.4, zoom * 1.4, 1][number]); keep(); };
  });
  at("theme").onclick = () => {
    theme(document.documentElement.dataset.theme === "dark" ? "light" : "dark");
    asked.set("theme", "");
    keep();
  };
}

// A click on a host, and on another one, chooses the route between them.
function listenToPicture() {
  data.cables.forEach((_, it) => { at(`c${it}`).onclick = () => openCable(it); });
  let first = null;
  data.hosts.forEach((host) => {
    at(`v_${host}`).onclick = () => {
      choosePair(first || host, first ? host : at("to").value);
      first = first ? null : host;
    };
  });
  listenToMouse(at("fabric"));
  listenToKeys(at("fabric"));
}

function begin() {
  for (const id of ["from", "to"]) data.hosts.forEach((it) => at(id).add(new Option(it, it)));
  listCables();
  listKinds();
  takeAddress();
  listenToBar();
  listenToPicture();
  arrows(at("cables"), "summary");
  arrows(at("events"), "li", (it) => it.click());
  document.addEventListener("keydown", (event) => {
    if (event.key === "Escape" && chosen !== null) at(`d${chosen}`).open = false;
  });
  window.addEventListener("hashchange", takeAddress);
  document.body.dataset.ready = "yes";
}
begin();
