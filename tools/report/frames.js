// The filmstrip, what the chosen frame wrote, and the objects that live at its beginning.

const WIDE = 112;
const HIGH = 64; // of a thumbnail
const film = { list: null, waiting: [], isBusy: false };
const objects = { list: null, live: [], shown: [] };

const thumbnails = new Kept(1 << 24, () => WIDE * HIGH * 4, async (image) => {
  const whole = canvasOf(colorsOf(image, await bytesIn(image), true));
  const scale = Math.min(WIDE / image.width, HIGH / image.height);
  const small = element("canvas");
  small.width = Math.max(1, Math.round(image.width * Math.min(scale, Math.max(1, Math.floor(scale)))));
  small.height = Math.max(1, Math.round(image.height * Math.min(scale, Math.max(1, Math.floor(scale)))));
  const pen = small.getContext("2d");
  pen.imageSmoothingEnabled = scale < 1;
  pen.imageSmoothingQuality = "high";
  pen.drawImage(whole, 0, 0, small.width, small.height);
  return small;
});

// Draws the thumbnails that wait for it, the newest first, of cells that are still in sight.
async function drawWaiting() {
  if (film.isBusy) return;
  film.isBusy = true;
  try {
    while (film.waiting.length) {
      const { canvas, image } = film.waiting.pop();
      if (!canvas.isConnected) continue;
      const small = await thumbnails.get(`${image.format} ${image.name}`, image);
      canvas.width = small.width;
      canvas.height = small.height;
      canvas.getContext("2d").drawImage(small, 0, 0);
    }
  } finally {
    film.isBusy = false;
  }
}

function filmCell(index) {
  const pair = frames[index];
  const image = pair.sides.find((frame) => frame?.images.length)?.images[0];
  const canvas = element("canvas");
  canvas.width = WIDE;
  canvas.height = HIGH;
  const cell = element("div", `cell${pair.differs ? " differs" : ""}`, element("div", "frame", canvas));
  cell.append(element("div", "label", String(pair.number)));
  cell.title = `Frame ${pair.number}${pair.differs ? ": differs" : ""}`;
  if (image) {
    film.waiting.push({ canvas, image });
    setTimeout(drawWaiting);
  }
  return cell;
}

function makeFilm(choose) {
  const box = document.getElementById("film");
  film.list = new List(box, 126, filmCell, true);
  box.classList.remove("list");
  film.list.inner.style.height = "100%";
  film.list.setCount(frames.length);
  box.addEventListener("click", (event) => {
    const index = List.indexOf(event);
    if (index >= 0) choose(index);
  });
  box.addEventListener("wheel", (event) => {
    if (event.deltaX || event.shiftKey) return;
    event.preventDefault();
    box.scrollLeft += event.deltaY;
  }, { passive: false });
}

function showWritten(frame) {
  const number = (value) => element("td", "", value.toLocaleString("en"));
  const bytes = frame ? frame.bytes : [];
  const total = bytes.reduce((sum, size) => sum + size, 0);
  const rows = bytes.map((size, way) => {
    const names = { writes: "FillMemory, by the program", fills: "vkCmdFillBuffer", updates: "vkCmdUpdateBuffer",
      clears: "vkCmdClearColorImage", copies: "vkCmdCopyBuffer, CopyImage, CopyBufferToImage, CopyImageToBuffer" };
    const name = summary.ways[way];
    const cells = [number(frame.count[way]), number(size), element("td", "quiet", names[name])];
    return element("tr", "", element("td", "", name), ...cells);
  });
  const head = element("tr", "", ...["by", "times", "bytes", ""].map((text) => element("th", "", text)));
  const sum = frame ? frame.count.reduce((all, count) => all + count, 0) : 0;
  const last = element("tr", "total", element("td", "", "all"), number(sum), number(total), element("td"));
  document.getElementById("written").replaceChildren(element("table", "", head, ...rows, last));
  document.getElementById("written-total").textContent = `${total.toLocaleString("en")} bytes`;
}

function objectRow(index) {
  const [id, kind, parent, fields, state] = objects.shown[index];
  const given = fields ? ` ${fields}` : "";
  return element("div", "row link", element("span", "id", String(id)), element("span", "kind", summary.kinds[kind]),
    element("span", "state", state), element("span", "fields", `${parent ? `of ${parent}` : ""}${given}`.trim()));
}

function filterObjects() {
  const words = document.getElementById("object-search").value.toLowerCase().split(/\s+/).filter(Boolean);
  objects.shown = objects.live.filter(([id, kind, parent, fields, state]) => {
    const text = `${id} ${summary.kinds[kind]} of ${parent} ${fields} ${state}`.toLowerCase();
    return words.every((word) => text.includes(word));
  });
  objects.list.setCount(objects.shown.length);
  if (!objects.live.length) {
    objects.list.inner.append(element("div", "none", "No object lives at the beginning of this frame."));
  }
}

// The objects that live at the beginning of a frame, each with its state there.
function liveAt(capture, index) {
  const live = [];
  for (const [id, kind, parent, fields, first, last, states] of capture.objects) {
    if (first > index || (last !== null && last <= index)) continue;
    let state = "";
    for (const [from, text] of states) if (from <= index) state = text;
    live.push([id, kind, parent, fields, state]);
  }
  return live;
}

function showObjects(capture, frame) {
  objects.live = frame ? liveAt(capture, frame.index) : [];
  document.getElementById("object-count").textContent = objects.live.length.toLocaleString("en");
  filterObjects();
}

function makeObjects() {
  objects.list = new List(document.getElementById("objects"), 20, objectRow);
  document.getElementById("object-search").addEventListener("input", filterObjects);
  document.getElementById("objects").addEventListener("click", (event) => {
    const index = List.indexOf(event);
    if (index >= 0) searchFor(`#${objects.shown[index][0]}`);
  });
  for (const tab of document.querySelectorAll("#tabs button")) {
    tab.addEventListener("click", () => {
      for (const other of document.querySelectorAll("#tabs button")) {
        other.classList.toggle("on", other === tab);
        document.getElementById(other.dataset.tab).hidden = other !== tab;
      }
      for (const name of ["object-search", "object-head"]) {
        document.getElementById(name).hidden = tab.dataset.tab !== "objects";
      }
      objects.list.draw();
    });
  }
}
