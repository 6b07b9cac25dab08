// The whole page: which frame is chosen, and what keys and buttons do.

const chosen = { index: 0, side: 0, item: 0 };
const byId = (name) => document.getElementById(name);

function choose(index, item = 0) {
  if (!frames.length) return Promise.resolve();
  chosen.index = Math.min(Math.max(index, 0), frames.length - 1);
  const pair = frames[chosen.index];
  const count = Math.max(...pair.sides.map((frame) => frame?.images.length ?? 0));
  chosen.item = Math.min(item, Math.max(count - 1, 0));
  film.list.choose(chosen.index);
  byId("number").value = pair.number;
  byId("frame-title").textContent = `Frame ${pair.number}`;
  showItems(count);
  const asked = pair.sides.map((frame) => frame?.images[chosen.item] ?? null);
  const formats = asked.filter(Boolean).map((image) => `${image.width} x ${image.height} ${image.format}`);
  byId("frame-format").textContent = [...new Set(formats)].join(" and ");
  byId("frame-format").title = asked.map((image) => (image ? `SHA-256 ${image.digest}` : "")).join("\n");
  return Promise.all([showImages(asked), showSide(chosen.side)]);
}

// Of a present that shows several images, which of them is looked at.
function showItems(count) {
  const buttons = count > 1 ? Array.from({ length: count }, (_, item) => item) : [];
  byId("items").replaceChildren(...buttons.map((item) => {
    const button = element("button", item === chosen.item ? "on" : "", String(item + 1));
    button.addEventListener("click", () => choose(chosen.index, item));
    return button;
  }));
}

// Calls, objects and what was written are those of one capture.
function showSide(side) {
  chosen.side = side;
  const buttons = byId("side").querySelectorAll("button");
  buttons.forEach((button, place) => button.classList.toggle("on", place === side));
  const frame = frames[chosen.index].sides[side];
  showWritten(frame);
  showObjects(captures[side], frame);
  return showCalls(captures[side], frame);
}

function chooseNumber(text) {
  const number = Number(text);
  const index = frames.findLastIndex((pair) => pair.number <= number);
  if (text.trim() && !Number.isNaN(number)) choose(Math.max(index, 0));
}

function nextDifference() {
  picture.center = null;
  for (let step = 1; step <= frames.length; step += 1) {
    const index = (chosen.index + step) % frames.length;
    if (frames[index].differs) return choose(index);
  }
  return undefined;
}

async function searchOn(step) {
  if (!calls.words.length) return;
  byId("found").textContent = "searching";
  const place = await nextFound(chosen.index, chosen.side, step);
  if (place >= 0) await choose(place);
  else search();
  chooseCall(calls.list.count ? 0 : -1);
}

const KEYS = {
  ArrowLeft: () => choose(chosen.index - 1),
  ArrowRight: () => choose(chosen.index + 1),
  Home: () => choose(0),
  End: () => choose(frames.length - 1),
  PageUp: () => choose(chosen.index - 10),
  PageDown: () => choose(chosen.index + 10),
  ArrowUp: () => chooseCall(Math.max(calls.chosen - 1, 0)),
  ArrowDown: () => chooseCall(Math.min(calls.chosen + 1, calls.list.count - 1)),
  "/": () => byId("search").select(),
  g: () => byId("number").select(),
  d: () => nextDifference(),
  t: () => setLook(),
};

function pressed(event) {
  if (event.ctrlKey || event.metaKey || event.altKey) return;
  if (event.target.matches("input:not([type=checkbox])")) {
    if (event.key === "Escape") {
      event.target.value = "";
      event.target.dispatchEvent(new Event("input"));
      event.target.blur();
    } else if (event.target === byId("search") && /^Arrow(Up|Down)$/.test(event.key)) {
      event.preventDefault();
      KEYS[event.key]();
    } else if (event.key === "Enter" && event.target === byId("search")) {
      searchOn(event.shiftKey ? -1 : 1);
    } else if (event.key === "Enter") {
      if (event.target === byId("number")) chooseNumber(event.target.value);
      event.target.blur();
    }
    return;
  }
  if (event.target.closest(".list") && /^(Page|Home|End)/.test(event.key)) return; // they scroll the list
  if (KEYS[event.key]) {
    event.preventDefault();
    KEYS[event.key]();
  }
}

// The look is the system's until one is chosen. A page from disk may be denied a store: then it is chosen each time.
function setLook(look = document.documentElement.classList.contains("light") ? "dark" : "light", isKept = true) {
  document.documentElement.classList.toggle("light", look === "light");
  byId("theme").textContent = look === "light" ? "Dark" : "Light";
  try {
    if (isKept) localStorage.setItem("gfxcap-look", look);
  } catch {
    return;
  } finally {
    drawViews();
  }
}

function firstLook() {
  let kept = null;
  try {
    kept = localStorage.getItem("gfxcap-look");
  } catch {
    kept = null;
  }
  return kept ?? (matchMedia("(prefers-color-scheme: light)").matches ? "light" : "dark");
}

function showAbout() {
  const count = (number, name) => `${number.toLocaleString("en")} ${name}${number === 1 ? "" : "s"}`;
  const about = captures.map((capture) => {
    const counts = { frame: capture.frames.length, call: capture.calls, thread: capture.threads.length };
    return Object.entries(counts).map(([name, number]) => count(number, name)).join(", ");
  });
  byId("title").textContent = captures.map((capture) => capture.name).join(" and ");
  const differing = frames.filter((pair) => pair.differs).length;
  const differs = `${differing.toLocaleString("en")} of ${count(frames.length, "frame")} differ`;
  byId("about").textContent = [...new Set(about), ...(captures.length > 1 ? [differs] : [])].join("; ");
  byId("next-difference").hidden = !differing;
  byId("side").hidden = captures.length < 2;
}

function start() {
  setLook(firstLook(), false);
  makeViews();
  makeFilm(choose);
  makeCalls();
  makeObjects();
  showAbout();
  document.addEventListener("keydown", pressed);
  byId("theme").addEventListener("click", () => setLook());
  byId("next-difference").addEventListener("click", nextDifference);
  byId("number").addEventListener("focus", () => byId("number").select());
  byId("alpha").addEventListener("change", () => {
    picture.hasAlpha = byId("alpha").checked;
    choose(chosen.index, chosen.item);
  });
  byId("side").querySelectorAll("button").forEach((button, side) => {
    button.addEventListener("click", () => showSide(side));
  });
  if (!frames.length) byId("views").append(element("div", "none", "This capture shows no frame."));
  const first = frames.findIndex((pair) => pair.differs);
  return choose(Math.max(first, 0));
}

start().then(() => document.documentElement.classList.add("ready"));
