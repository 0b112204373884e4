// The page: it draws from the player's tile outwards, and asks the server what there is.

import { Plane } from "./plane.js";

const COLOURS = ["#e9b44c", "#6c9bd2", "#8dbf67", "#d0706a", "#9c87c8", "#5bb0aa", "#d88fb2",
                 "#b0a06b", "#7f8fa6", "#c98b4f"];
const LINE = "#2b2b33";
const GROUND = "#f4f2ec";
const MILLISECONDS = new URLSearchParams(location.search).has("still") ? 0 : 180;
const STEP = { L: 1, R: -1 };

const canvas = document.getElementById("plane");
const pen = canvas.getContext("2d");
const field = (name) => document.getElementById(name);

let tables;             // kinds with outlines and moves, from the server
let plane;
let state;              // what the server told last
const rings = new Map(); // the tiles around, by kind
let shown;              // how the middle tile lies on the screen: a move
let line = Promise.resolve();

// --- asking ---

async function told(path, body) {
  const reply = await fetch(path, body && { method: "POST", body: JSON.stringify(body) });
  if (!reply.ok) throw new Error(await reply.text());
  return reply.json();
}

async function around(kind) {
  if (!rings.has(kind)) {
    const tiles = await told(`around?kind=${kind}`);
    rings.set(kind, tiles.map(([of, place]) => ({ kind: of, place })));
  }
  return rings.get(kind);
}

// Does one thing after those that were asked for before.
function ask(what) {
  line = line.then(async () => {
    const asked = typeof what === "function" ? what() : what;
    if (!asked) return;
    const before = state;
    const next = await told("do", asked);
    await around(next.kind);
    state = next;
    tell(next);
    const moved = before && asked.do === "go" && !next.refused;
    const from = moved ? plane.then(shown, movedBy(before, asked.letters)) : null;
    await show(upright(next.kind, next.side), from);
  }).catch((error) => { field("said").textContent = error.message || "the program has ended"; })
    .finally(() => { document.body.dataset.turn = Number(document.body.dataset.turn || 0) + 1; });
  return line;
}

// --- where things lie ---

// The turn of a tile with which that side is ahead.
const upright = (kind, side) => plane.turn(Math.PI / 2 - tables.kinds[kind].ahead[side]);

// The move from the tile before to the tile after some letters, in the numbers of the server.
function movedBy(before, letters) {
  let { kind, side } = before;
  let move = plane.still;
  for (const letter of letters) {
    const sides = tables.kinds[kind].sides;
    if (letter === "X") {
      move = plane.then(move, tables.kinds[kind].across[side]);
      [kind, side] = tables.kinds[kind].crossed[side];
    } else {
      side = (side + STEP[letter] + sides) % sides;
    }
  }
  const { ahead, repeat } = tables.kinds[kind];
  return plane.then(move, plane.turn(ahead[side] - ahead[side % repeat]));
}

// --- drawing ---

function size() {
  const ratio = window.devicePixelRatio || 1;
  const wide = Math.round(canvas.clientWidth * ratio);
  const high = Math.round(canvas.clientHeight * ratio);
  if (canvas.width !== wide || canvas.height !== high) [canvas.width, canvas.height] = [wide, high];
  // The disk as a whole; of the plane as much as lies around in each direction.
  const scale = plane.curved
    ? Math.min(wide, high) / 2 - 8 * ratio
    : tables.scale * Math.hypot(wide, high) / 800;
  return { wide, high, ratio, scale, x: wide / 2, y: high / 2 };
}

function spot(at, [x, y]) {
  return [at.x + at.scale * x, at.y - at.scale * y];
}

const apart = (p, q) => Math.hypot(p[0] - q[0], p[1] - q[1]);

function edge(at, p, q) {
  const circle = apart(p, q) * at.scale > 6 * at.ratio && plane.circle(p, q);
  if (!circle || circle.radius > 300) {
    pen.lineTo(...spot(at, q));
    return;
  }
  const angle = ([x, y]) => Math.atan2(circle.y - y, x - circle.x);
  const [from, to] = [angle(p), angle(q)];
  const turn = Math.atan2(Math.sin(to - from), Math.cos(to - from));
  pen.arc(...spot(at, [circle.x, circle.y]), circle.radius * at.scale, from, from + turn, turn < 0);
}

function outline(at, ends) {
  pen.beginPath();
  pen.moveTo(...spot(at, ends[ends.length - 1]));
  ends.forEach((end, number) => edge(at, ends[(number + ends.length - 1) % ends.length], end));
  pen.closePath();
}

// Lines of small tiles are thin, so that these are seen too.
function thin(at, [p, q]) {
  return Math.max(0.25 * at.ratio, Math.min(1.2 * at.ratio, apart(p, q) * at.scale / 14));
}

// Writes in the middle of a tile, or below the player's arrow; a dot where there is no room.
function write(at, ends, text, below) {
  const mean = (part) => ends.reduce((sum, end) => sum + end[part], 0) / ends.length;
  let [x, y] = spot(at, [mean(0), mean(1)]);
  const wide = at.scale * Math.min(...ends.map((end, number) => {
    const other = ends[(number + Math.floor(ends.length / 2)) % ends.length];
    return apart(end, other);
  }));
  if (wide < 34 * at.ratio) {
    pen.beginPath();
    pen.arc(x, y, Math.max(1.5 * at.ratio, wide / 9), 0, 7);
    pen.fillStyle = LINE;
    pen.fill();
    return;
  }
  if (below) y += wide / 6;
  pen.font = `${Math.min(18 * at.ratio, wide / 5)}px system-ui, sans-serif`;
  pen.textAlign = "center";
  pen.textBaseline = "middle";
  let words = text || "·";
  while (words.length > 1 && pen.measureText(words).width > 0.8 * wide) {
    words = `${words.slice(0, -2)}…`;
  }
  pen.fillStyle = LINE;
  pen.fillText(words, x, y);
}

function draw(move) {
  const at = size();
  pen.fillStyle = GROUND;
  pen.fillRect(0, 0, at.wide, at.high);
  pen.strokeStyle = LINE;
  pen.lineJoin = "round";
  const tiles = rings.get(state.kind);
  const placed = tiles.map((tile) => {
    const place = plane.then(move, tile.place);
    return tables.kinds[tile.kind].outline.map((corner) => plane.place(place, corner));
  });
  tiles.forEach((tile, number) => {
    outline(at, placed[number]);
    pen.lineWidth = thin(at, placed[number]);
    pen.fillStyle = COLOURS[tile.kind % COLOURS.length];
    pen.fill();
    if (number === state.start) {
      pen.fillStyle = "rgba(255, 255, 255, .55)";
      pen.fill();
    }
    pen.stroke();
  });
  for (const [number, text] of Object.entries(state.texts)) {
    if (placed[number]) write(at, placed[number], text, number === "0");
  }
  pen.lineWidth = 1.2 * at.ratio;
  if (plane.curved) {
    pen.beginPath();
    pen.arc(at.x, at.y, at.scale, 0, 7);
    pen.stroke();
  }
  player(at);
}

// The player: an arrow in the middle, which points ahead.
function player(at) {
  const unit = 11 * at.ratio;
  pen.beginPath();
  pen.moveTo(at.x, at.y - 2.6 * unit);
  pen.lineTo(at.x + 0.9 * unit, at.y - 0.9 * unit);
  pen.lineTo(at.x, at.y - 1.3 * unit);
  pen.lineTo(at.x - 0.9 * unit, at.y - 0.9 * unit);
  pen.closePath();
  pen.fillStyle = "#fff";
  pen.fill();
  pen.stroke();
}

// Shows the tiles round the player's; from where they lay before, if that is told.
async function show(to, from) {
  if (from && MILLISECONDS) {
    const rest = plane.then(plane.back(to), from);
    const start = performance.now();
    for (let share = 0; share < 1;) {
      share = Math.min(1, (await frame() - start) / MILLISECONDS);
      draw(plane.then(to, plane.part(rest, 1 - share)));
    }
  }
  shown = to;
  draw(to);
}

const frame = () => new Promise((done) => requestAnimationFrame(done));

// A long text without its middle.
function cut(text, length = 60) {
  if (text.length <= length) return text;
  return `${text.slice(0, length / 2)} … ${text.slice(-length / 2)}`;
}

function tell(now) {
  field("name").textContent = cut(now.name);
  field("level").textContent = now.level;
  field("side").textContent = `${now.kind}, ${now.side}`;
  field("distance").textContent = now.distance === null ? "too far to tell" : now.distance;
  field("back").textContent = now.back === null ? "too far to tell" : cut(now.back || "-", 44);
  field("text").textContent = now.text === null ? "none" : now.text;
  field("written").textContent = now.written;
  field("said").textContent = now.refused;
}

// --- keys and clicks ---

const half = (kind) => "L".repeat(Math.floor(tables.kinds[kind].sides / 2));
const ahead = () => `X${half(tables.kinds[state.kind].crossed[state.side][0])}`;
const KEYS = {
  ArrowLeft: () => ({ do: "go", letters: "L" }),
  ArrowRight: () => ({ do: "go", letters: "R" }),
  ArrowUp: () => ({ do: "go", letters: ahead() }),
  ArrowDown: () => ({ do: "go", letters: half(state.kind) }),
  x: () => ({ do: "go", letters: "X" }),
  m: () => ({ do: "mark" }),
  b: () => ({ do: "back" }),
  s: () => ({ do: "save" }),
};

function press(event) {
  if (event.target === field("words") || event.ctrlKey || event.metaKey || event.altKey) return;
  const key = event.key.length === 1 ? event.key.toLowerCase() : event.key;
  if (key === "t") {
    event.preventDefault();
    field("words").value = state.text || "";
    field("words").focus();
    field("words").select();
  } else if (KEYS[key]) {
    event.preventDefault();
    ask(KEYS[key]);
  }
}

function submit(event) {
  event.preventDefault();
  const text = field("words").value;
  canvas.focus();
  ask({ do: "put", text });
}

// Whether a point lies in a polygon: a line from it crosses an odd number of edges.
function isInside([x, y], ends) {
  return ends.reduce((odd, [px, py], number) => {
    const [qx, qy] = ends[(number + ends.length - 1) % ends.length];
    const meets = (py > y) !== (qy > y) && x < (qx - px) * (y - py) / (qy - py) + px;
    return meets ? !odd : odd;
  }, false);
}

// The number of the tile at a point of the screen, -1 where none is.
function tileAt(event) {
  const at = size();
  const box = canvas.getBoundingClientRect();
  const x = ((event.clientX - box.left) * at.ratio - at.x) / at.scale;
  const y = (at.y - (event.clientY - box.top) * at.ratio) / at.scale;
  return rings.get(state.kind).findIndex((tile) => {
    const place = plane.then(shown, tile.place);
    const ends = tables.kinds[tile.kind].outline.map((corner) => plane.place(place, corner));
    return isInside([x, y], ends);
  });
}

function click(event) {
  canvas.focus();
  const tile = tileAt(event);
  if (tile >= 0) ask({ do: "visit", tile });
}

async function start() {
  tables = await told("tables");
  plane = new Plane(tables.curved);
  field("title").textContent = tables.title;
  document.addEventListener("keydown", press);
  field("form").addEventListener("submit", submit);
  field("words").addEventListener("keydown", (event) => {
    if (event.key === "Escape") canvas.focus();
  });
  canvas.addEventListener("click", click);
  window.addEventListener("resize", () => shown && draw(shown));
  canvas.focus();
  await ask({ do: "look" });
}

start().catch((error) => { field("said").textContent = error.message; });
