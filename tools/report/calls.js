// The calls of the chosen frame in their order, with a lane for each thread; and the search in them.

const KINDS_OF_CALLS = [
  ["write", /^(FillMemory|InitImage|SetS)/],
  ["command", /^vk(Cmd|BeginCommandBuffer|EndCommandBuffer|ResetCommand)/],
  ["submit", /^vkQueueSubmit/],
  ["present", /^vk(QueuePresent|AcquireNextImage)/],
  ["wait", /^vk(.*Fence|.*Semaphore|.*WaitIdle)/],
  ["object", /^vk/],
];
const calls = { list: null, lines: [], found: null, words: [], tests: [], chosen: -1, first: 1, threads: [], request: 0 };

function parsed(line) {
  const [, thread, name, fields] = /^(?:thread=(\d+) )?(\S+) ?(.*)$/.exec(line);
  const kind = KINDS_OF_CALLS.find(([, form]) => form.test(name))?.[0] ?? "other";
  return { thread: thread === undefined ? -1 : Number(thread), name, fields, kind };
}

function laneWidth() {
  return calls.threads.length <= 8 ? 16 : calls.threads.length <= 24 ? 9 : 5;
}

// A text in which the words of the search stand out.
function marked(text) {
  const low = text.toLowerCase();
  const marks = new Array(text.length).fill(false);
  for (const word of calls.words) {
    for (let at = low.indexOf(word); at >= 0; at = low.indexOf(word, at + word.length)) {
      marks.fill(true, at, at + word.length);
    }
  }
  const parts = [];
  for (let from = 0; from < text.length; ) {
    let to = from;
    while (to < text.length && marks[to] === marks[from]) to += 1;
    parts.push(marks[from] ? element("mark", "", text.slice(from, to)) : text.slice(from, to));
    from = to;
  }
  return parts;
}

function fieldsOf(fields) {
  return fields.slice(0, 400).split(" ").flatMap((field) => {
    const [name, value] = [field.slice(0, field.indexOf("=") + 1), field.slice(field.indexOf("=") + 1)];
    return [...marked(name), element("b", "", ...marked(value)), " "];
  });
}

function callRow(place) {
  const index = calls.found ? calls.found[place] : place;
  const call = parsed(calls.lines[index]);
  const width = laneWidth();
  const lanes = element("span", `lanes ${call.kind}`);
  lanes.style.width = `${calls.threads.length * width}px`;
  const middle = width / 2;
  lanes.style.background = `repeating-linear-gradient(90deg, transparent 0 ${middle - 1}px, var(--line) ${middle - 1}px
    ${middle}px, transparent ${middle}px ${width}px)`;
  if (call.thread >= 0) {
    const dot = element("i");
    const wide = Math.max(3, width - 6);
    dot.style.width = `${wide}px`;
    dot.style.left = `${calls.threads.indexOf(call.thread) * width + (width - 1 - wide) / 2}px`;
    lanes.append(dot);
  }
  const block = element("span", "block", String(calls.first + index));
  const name = element("span", `name ${call.kind}`, ...marked(call.name));
  return element("div", "row", block, lanes, name, element("span", "fields", ...fieldsOf(call.fields)));
}

function drawLanes() {
  const width = laneWidth();
  const threads = element("span", "threads");
  threads.style.width = `${calls.threads.length * width}px`;
  calls.threads.forEach((thread, place) => {
    const label = element("span", "", width >= 9 || place % 4 === 0 ? String(thread) : "");
    label.title = `Thread ${thread}`;
    Object.assign(label.style, { left: `${place * width - 4}px`, width: `${width + 8}px` });
    threads.append(label);
  });
  const head = [element("span", "block", "block"), threads, element("span", "", "thread, call")];
  document.getElementById("lanes").replaceChildren(...head);
}

const IDS = "instance|surface|device|queue|memory|buffer|image|pool|cb|source|target|fence|semaphore|swapchain";

// What looks in a call for an object: as the value of a field, in a list of ids, or as the first value of a record.
function naming(id) {
  const form = new RegExp(` (?:${IDS})=${id}(?= |$)|[[,]${id}(?=[,\\]])|\\(${id},`);
  return (line) => form.test(line.replace(/ (?:regions|acquired|bytes)=\S*/g, ""));
}

// What a word of the search asks of a call: that it has the word, or with `#` that it names an object.
function test(word) {
  return /^#\d+$/.test(word) ? naming(word.slice(1)) : (line) => line.toLowerCase().includes(word);
}

function matches(line) {
  return calls.tests.every((asked) => asked(line));
}

// Keeps the calls with all words of the search, all of them where it has none.
function search() {
  calls.words = document.getElementById("search").value.toLowerCase().split(/\s+/).filter(Boolean);
  calls.tests = calls.words.map(test);
  calls.found = null;
  if (calls.words.length) {
    calls.found = [];
    calls.lines.forEach((line, index) => {
      if (matches(line)) calls.found.push(index);
    });
  }
  const count = calls.found ? calls.found.length : calls.lines.length;
  const all = calls.lines.length.toLocaleString("en");
  document.getElementById("found").textContent = calls.found ? `${count.toLocaleString("en")} of ${all}` : all;
  calls.list.chosen = -1;
  calls.list.setCount(count);
  chooseCall(-1);
}

function searchFor(text) {
  document.getElementById("search").value = text;
  search();
}

// Chooses a call in the list, and shows all of its fields.
function chooseCall(row) {
  calls.chosen = row;
  const box = document.getElementById("call");
  box.replaceChildren();
  if (row < 0 || row >= calls.list.count) return;
  calls.list.choose(row);
  const index = calls.found ? calls.found[row] : row;
  const call = parsed(calls.lines[index]);
  const thread = call.thread >= 0 ? `   thread ${call.thread}` : "";
  const place = element("span", "quiet", `   block ${calls.first + index}${thread}`);
  const head = element("div", "", element("b", call.kind, call.name), place);
  const fields = call.fields.split(/ (?=[a-z_0-9]+=|\()/).filter(Boolean).map((field) => {
    const cut = field.indexOf("=") + 1;
    const value = field.slice(cut).replace(/^\[\(/, "[\n    (").replace(/\),\(/g, "),\n    (");
    const name = field.slice(0, cut - 1);
    const bits = /^(word|c[0-3])$/.test(name) ? `  0x${Number(value).toString(16).padStart(8, "0")}` : "";
    return element("div", "field", element("span", "quiet", `${name}  `), value, element("span", "quiet", bits));
  });
  box.append(head, ...fields);
}

async function showCalls(capture, frame) {
  calls.request += 1;
  const { request } = calls;
  const lines = frame ? await linesOf(frame) : [];
  if (request !== calls.request) return;
  Object.assign(calls, { lines, first: frame ? frame.block : 1, threads: capture.threads });
  drawLanes();
  search();
  calls.list.offset = 0;
  calls.list.draw();
}

// The next frame, from the one behind `index` on and around, with a call that matches the search; -1 for none.
async function nextFound(index, side, step) {
  const { request } = calls;
  for (let passed = 1; passed < frames.length; passed += 1) {
    const place = (index + step * passed + frames.length * passed) % frames.length;
    const frame = frames[place].sides[side];
    if (frame && (await linesOf(frame)).some(matches)) return place;
    if (request !== calls.request) return -1;
  }
  return -1;
}

function makeCalls() {
  const box = document.getElementById("calls");
  calls.list = new List(box, 20, callRow);
  box.addEventListener("click", (event) => {
    const place = List.indexOf(event);
    if (place >= 0) chooseCall(place);
  });
  document.getElementById("search").addEventListener("input", search);
}
