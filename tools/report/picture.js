// The image of the chosen frame at 1:1 and enlarged; of two captures both images, and their difference.

const AUTOMATIC = 0; // the scale that shows a small image whole, and else texels that can be told apart
const picture = { views: [], shown: [], focus: null, center: null, scale: AUTOMATIC, hasAlpha: true, request: 0 };

class View {
  constructor() {
    this.caption = element("figcaption", "mono");
    this.canvas = element("canvas");
    this.actual = element("div", "actual", this.canvas);
    this.enlarged = element("canvas");
    this.large = element("div", "large", this.enlarged);
    this.figure = element("figure", "view", this.caption, element("div", "pair", this.actual, this.large));
    this.source = null;
    this.canvas.addEventListener("pointermove", (event) => pointAt(event.offsetX, event.offsetY, true));
    this.large.addEventListener("pointermove", (event) => this.moved(event));
    this.large.addEventListener("wheel", (event) => this.turned(event), { passive: false });
    for (const box of [this.canvas, this.large]) box.addEventListener("pointerleave", () => pointAt(-1, -1));
    new ResizeObserver(() => this.draw()).observe(this.large);
  }

  show(source, caption) {
    this.source = source;
    this.caption.textContent = caption;
    this.canvas.width = source ? source.width : 1;
    this.canvas.height = source ? source.height : 1;
    this.canvas.hidden = !source;
    if (source) this.canvas.getContext("2d").drawImage(source, 0, 0);
    this.draw();
  }

  get scale() {
    if (picture.scale !== AUTOMATIC || !this.source) return picture.scale || 1;
    const { clientWidth: width, clientHeight: height } = this.large;
    const whole = Math.floor(Math.min((width - 16) / this.source.width, (height - 16) / this.source.height));
    return whole >= 4 ? Math.min(whole, 48) : 8;
  }

  // The texel in the middle, such that no more than needed is empty.
  center() {
    const along = (length, sight, wished) => {
      const half = sight / this.scale / 2;
      return half * 2 >= length ? length / 2 : Math.min(Math.max(wished, half), length - half);
    };
    const { width, height } = this.source;
    const wished = picture.center ?? { x: width / 2, y: height / 2 };
    return {
      x: along(width, this.large.clientWidth, wished.x),
      y: along(height, this.large.clientHeight, wished.y),
    };
  }

  moved(event) {
    if (!this.source) return;
    const box = this.large.getBoundingClientRect();
    const { scale } = this;
    const middle = this.center();
    if (event.buttons & 1) {
      picture.center = { x: middle.x - event.movementX / scale, y: middle.y - event.movementY / scale };
    }
    const x = (event.clientX - box.left - box.width / 2) / scale + middle.x;
    const y = (event.clientY - box.top - box.height / 2) / scale + middle.y;
    pointAt(x, y);
  }

  turned(event) {
    event.preventDefault();
    const steps = [1, 2, 3, 4, 6, 8, 12, 16, 24, 32, 48, 64];
    const now = steps.findLastIndex((step) => step <= this.scale);
    picture.scale = steps[Math.min(Math.max(now - Math.sign(event.deltaY), 0), steps.length - 1)];
    if (picture.focus) picture.center = { ...picture.focus };
    drawViews();
  }

  draw() {
    const { clientWidth: width, clientHeight: height } = this.large;
    const fine = window.devicePixelRatio || 1;
    this.enlarged.width = Math.round(width * fine);
    this.enlarged.height = Math.round(height * fine);
    if (!this.source || !width || !height) return;
    const pen = this.enlarged.getContext("2d");
    const { scale } = this;
    const middle = this.center();
    pen.setTransform(fine, 0, 0, fine, 0, 0);
    const left = Math.round(width / 2 - middle.x * scale);
    const top = Math.round(height / 2 - middle.y * scale);
    drawSquares(pen, left, top, this.source.width * scale, this.source.height * scale);
    pen.imageSmoothingEnabled = false;
    pen.drawImage(this.source, left, top, this.source.width * scale, this.source.height * scale);
    if (picture.focus) drawFocus(pen, left, top, scale);
  }
}

// The checkerboard behind what isn't opaque, as far as it is in sight.
function drawSquares(pen, left, top, width, height) {
  const style = getComputedStyle(document.documentElement);
  const colors = ["--square-a", "--square-b"].map((name) => style.getPropertyValue(name));
  const right = Math.min(left + width, pen.canvas.width);
  const bottom = Math.min(top + height, pen.canvas.height);
  const from = [Math.max(0, left), Math.max(0, top)];
  pen.fillStyle = colors[0];
  pen.fillRect(from[0], from[1], right - from[0], bottom - from[1]);
  pen.fillStyle = colors[1];
  for (let y = from[1]; y < bottom; y += 8) {
    const isOdd = Math.round((y - from[1]) / 8) % 2;
    for (let x = from[0] + 8 * isOdd; x < right; x += 16) {
      pen.fillRect(x, y, Math.min(8, right - x), Math.min(8, bottom - y));
    }
  }
}

function drawFocus(pen, left, top, scale) {
  const { x, y } = picture.focus;
  pen.lineWidth = 1;
  pen.strokeStyle = "#000";
  pen.strokeRect(left + x * scale - 0.5, top + y * scale - 0.5, scale + 1, scale + 1);
  pen.strokeStyle = "#fff";
  pen.strokeRect(left + x * scale - 1.5, top + y * scale - 1.5, scale + 3, scale + 3);
}

function drawViews() {
  for (const view of picture.views) view.draw();
  document.getElementById("scale").textContent = picture.views.length ? `${picture.views[0].scale}:1` : "";
}

function isInside({ width, height }, { x, y }) {
  return x >= 0 && y >= 0 && x < width && y < height;
}

// Points at a texel of all views, or at none, and shows its value.
function pointAt(x, y, isCentered = false) {
  const at = { x: Math.floor(x), y: Math.floor(y) };
  const isIn = picture.shown.some((one) => one && isInside(one.image, at));
  picture.focus = isIn ? at : null;
  if (isIn && isCentered) picture.center = { x: at.x + 0.5, y: at.y + 0.5 };
  drawViews();
  showTexel();
}

function showTexel() {
  const box = document.getElementById("texel");
  if (!picture.focus) {
    box.textContent = "Point at a texel for its place and value";
    return;
  }
  const { x, y } = picture.focus;
  const values = picture.shown.map((one, side) => {
    const value = one && isInside(one.image, picture.focus) ? valueOf(one.image, one.bytes, x, y) : "none";
    return `${picture.shown.length > 1 ? `${"AB"[side]}  ` : ""}${value}`;
  });
  const indent = " ".repeat(16);
  box.replaceChildren(`x ${x}, y ${y}`.padEnd(16), element("b", "", values.join(`\n${indent}`)));
}

// The texels in which two images differ: in magenta over the first one, made dark.
function differenceOf(one, other) {
  const { width, height } = one.image;
  const { size } = FORMATS[one.image.format];
  const colors = colorsOf(one.image, one.bytes, false);
  const found = { colors, count: 0, first: null, left: width, top: height, right: -1, bottom: -1 };
  for (let y = 0, texel = 0; y < height; y += 1) {
    for (let x = 0; x < width; x += 1, texel += 1) {
      const from = texel * size;
      let differs = false;
      for (let at = from; at < from + size; at += 1) differs ||= one.bytes[at] !== other.bytes[at];
      for (let at = texel * 4; at < texel * 4 + 3; at += 1) colors.data[at] >>= 2;
      if (!differs) continue;
      colors.data.set([255, 0, 255], texel * 4);
      found.first ??= { x, y };
      found.count += 1;
      found.left = Math.min(found.left, x);
      found.right = Math.max(found.right, x);
      found.top = Math.min(found.top, y);
      found.bottom = y;
    }
  }
  return found;
}

// Brings a texel into the middle, where no one has pointed at another yet.
function lookAt(texel) {
  if (picture.center || !texel) return;
  picture.center = { x: texel.x + 0.5, y: texel.y + 0.5 };
  for (const { actual } of picture.views) {
    actual.scrollTo(texel.x - actual.clientWidth / 2, texel.y - actual.clientHeight / 2);
  }
}

function showDifference(view, [one, other]) {
  const tell = (text) => {
    document.getElementById("difference").textContent = text;
  };
  const isAlike = one && other && ["width", "height", "format"].every((part) => one.image[part] === other.image[part]);
  if (!isAlike) {
    view.show(null, "Difference");
    tell(one && other ? "other extents or formats" : "only in one of the captures");
    return;
  }
  const found = differenceOf(one, other);
  view.show(canvasOf(found.colors), "Difference");
  lookAt(found.first);
  const place = `from (${found.left},${found.top}) to (${found.right},${found.bottom})`;
  const all = one.image.width * one.image.height;
  tell(found.count ? `${found.count} of ${all} texels differ, ${place}` : "no texel differs");
}

// Shows an image of each capture, null where it has none, once they are unpacked and unless others are asked for then.
async function showImages(asked) {
  picture.request += 1;
  const { request } = picture;
  const shown = await Promise.all(asked.map(async (image) => image && { image, bytes: await bytesIn(image) }));
  if (request !== picture.request) return;
  picture.shown = shown;
  shown.forEach((one, side) => {
    const name = shown.length > 1 ? `${"AB"[side]}: ${captures[side].name}` : "1:1";
    const source = one ? canvasOf(colorsOf(one.image, one.bytes, picture.hasAlpha)) : null;
    picture.views[side].show(source, one ? name : `${name} has no such image`);
  });
  if (shown.length > 1) showDifference(picture.views[2], shown);
  drawViews();
  showTexel();
}

// Images at 1:1 that don't fit are scrolled together.
function scrollTogether({ target }) {
  for (const { actual } of picture.views) {
    if (actual === target) continue;
    actual.scrollLeft = target.scrollLeft;
    actual.scrollTop = target.scrollTop;
  }
}

function makeViews() {
  const box = document.getElementById("views");
  const count = captures.length > 1 ? 3 : 1;
  picture.views = Array.from({ length: count }, () => new View());
  for (const { actual } of picture.views) actual.addEventListener("scroll", scrollTogether, { passive: true });
  box.replaceChildren(...picture.views.map((view) => view.figure));
  document.getElementById("left").classList.toggle("two", count > 1);
}
