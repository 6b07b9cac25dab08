// What stands in the page: a summary, and contents that are unpacked when they are looked at.

const summary = JSON.parse(document.getElementById("summary").textContent);
const captures = summary.captures;

async function unpacked(name) {
  const letters = atob(document.getElementById(name).textContent);
  const packed = new Uint8Array(letters.length);
  for (let at = 0; at < letters.length; at += 1) packed[at] = letters.charCodeAt(at);
  const stream = new Blob([packed]).stream().pipeThrough(new DecompressionStream("deflate"));
  return new Uint8Array(await new Response(stream).arrayBuffer());
}

// What was made last, as much of it as fits under a limit.
class Kept {
  constructor(limit, sizeOf, make) {
    Object.assign(this, { limit, sizeOf, make, entries: new Map(), size: 0 });
  }

  get(key, given) {
    const found = this.entries.get(key);
    if (found) {
      this.entries.delete(key);
      this.entries.set(key, found);
      return found;
    }
    const made = this.make(given);
    this.entries.set(key, made);
    this.size += this.sizeOf(given);
    made.given = given;
    for (const [old, entry] of this.entries) {
      if (this.size <= this.limit || old === key) break;
      this.entries.delete(old);
      this.size -= this.sizeOf(entry.given);
    }
    return made;
  }
}

const FORMATS = {
  R8_UINT: { size: 1, at: [0, 0, 0, -1] },
  R32_UINT: { size: 4, at: [0, 0, 0, -1] },
  R8G8B8A8_UINT: { size: 4, at: [0, 1, 2, 3] },
  R8G8B8A8_UNORM: { size: 4, at: [0, 1, 2, 3], isNormal: true },
  B8G8R8A8_UNORM: { size: 4, at: [2, 1, 0, 3], isNormal: true },
};

// The bytes of an image, texel by texel. In the page a row has the first bytes of its texels, then the second ones.
async function bytesOf(image) {
  const planes = await unpacked(image.name);
  const { size } = FORMATS[image.format];
  if (size === 1) return planes;
  const bytes = new Uint8Array(planes.length);
  const { width, height } = image;
  for (let y = 0, from = 0; y < height; y += 1) {
    for (let plane = 0; plane < size; plane += 1) {
      let to = y * width * size + plane;
      for (const end = from + width; from < end; from += 1, to += size) bytes[to] = planes[from];
    }
  }
  return bytes;
}

// The colors of an image as a canvas has them.
function colorsOf(image, bytes, hasAlpha) {
  const { size, at: [red, green, blue, alpha] } = FORMATS[image.format];
  const colors = new ImageData(image.width, image.height);
  for (let from = 0, to = 0; from < bytes.length; from += size, to += 4) {
    colors.data[to] = bytes[from + red];
    colors.data[to + 1] = bytes[from + green];
    colors.data[to + 2] = bytes[from + blue];
    colors.data[to + 3] = alpha < 0 || !hasAlpha ? 255 : bytes[from + alpha];
  }
  return colors;
}

function canvasOf(colors) {
  const canvas = document.createElement("canvas");
  canvas.width = colors.width;
  canvas.height = colors.height;
  canvas.getContext("2d").putImageData(colors, 0, 0);
  return canvas;
}

// The value of a texel, in bytes and as its format reads them.
function valueOf(image, bytes, x, y) {
  const { size, at, isNormal } = FORMATS[image.format];
  const from = (y * image.width + x) * size;
  const texel = bytes.subarray(from, from + size);
  const digits = [...texel].map((byte) => byte.toString(16).padStart(2, "0")).join(" ");
  if (at[3] < 0) {
    const number = texel.reduceRight((sum, byte) => sum * 256 + byte, 0);
    return `${number}   ${digits}`;
  }
  const parts = at.map((place, channel) => {
    const byte = texel[place];
    return `${"RGBA"[channel]} ${String(byte).padStart(3)}${isNormal ? ` (${(byte / 255).toFixed(3)})` : ""}`;
  });
  return `${parts.join("  ")}   ${digits}`;
}

const images = new Kept(1 << 27, (image) => image.width * image.height * 4, bytesOf);
const texts = new Kept(1 << 25, (frame) => frame.lines * 100, async (frame) => {
  const text = new TextDecoder().decode(await unpacked(frame.name));
  return text.split("\n").slice(0, -1);
});

const bytesIn = (image) => images.get(image.name, image);
const linesOf = (frame) => texts.get(frame.name, frame);

// The frames of one capture, or of both by their numbers.
function pairedFrames() {
  const pairs = new Map();
  captures.forEach((capture, side) => {
    capture.frames.forEach((frame, index) => {
      Object.assign(frame, { name: `${capture.prefix}${index}`, index });
      const pair = pairs.get(frame.number) ?? { number: frame.number, sides: captures.map(() => null) };
      pair.sides[side] = frame;
      pairs.set(frame.number, pair);
    });
  });
  const shown = (frame) => frame?.images.map((image) => `${image.format} ${image.name}`).join();
  for (const pair of pairs.values()) {
    pair.differs = pair.sides.length === 2 && shown(pair.sides[0]) !== shown(pair.sides[1]);
  }
  return [...pairs.values()].sort((one, other) => (BigInt(one.number) < BigInt(other.number) ? -1 : 1));
}

const frames = pairedFrames();
