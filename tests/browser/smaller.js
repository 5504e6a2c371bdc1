/* A screenshot with a palette of at most 256 colours: a third of the bytes. PNG as the browser writes it, 8 bits a channel, not interlaced. */
"use strict";
const zlib = require("zlib");

const SIGNATURE = Buffer.from([137, 80, 78, 71, 13, 10, 26, 10]);

function chunks(png) {
  const out = [];
  for (let at = 8; at < png.length; at += 12 + png.readUInt32BE(at)) out.push({ name: png.toString("latin1", at + 4, at + 8), data: png.subarray(at + 8, at + 8 + png.readUInt32BE(at)) });
  return out;
}

function paeth(a, b, c) {
  const p = a + b - c, pa = Math.abs(p - a), pb = Math.abs(p - b), pc = Math.abs(p - c);
  return pa <= pb && pa <= pc ? a : pb <= pc ? b : c;
}

/* The rows without their filters. */
function pixels(png) {
  const parts = chunks(png), head = parts[0].data, width = head.readUInt32BE(0), height = head.readUInt32BE(4), channels = head[9] === 6 ? 4 : 3, row = width * channels;
  const raw = zlib.inflateSync(Buffer.concat(parts.filter((c) => c.name === "IDAT").map((c) => c.data))), out = Buffer.alloc(row * height);
  for (let y = 0; y < height; y++) {
    const filter = raw[y * (row + 1)];
    for (let x = 0; x < row; x++) {
      const a = x >= channels ? out[y * row + x - channels] : 0, b = y > 0 ? out[(y - 1) * row + x] : 0, c = x >= channels && y > 0 ? out[(y - 1) * row + x - channels] : 0;
      out[y * row + x] = raw[y * (row + 1) + 1 + x] + [0, a, b, (a + b) >> 1, paeth(a, b, c)][filter];
    }
  }
  return { width, height, channels, out };
}

/* The most frequent colours as they are; the others by the nearest of these. */
function paletteOf(counts) {
  const colours = [...counts.keys()].sort((a, b) => counts.get(b) - counts.get(a)), palette = colours.slice(0, 256), index = new Map(palette.map((c, i) => [c, i]));
  const far = (a, b) => [16, 8, 0].reduce((sum, shift) => sum + (((a >> shift) & 255) - ((b >> shift) & 255)) ** 2, 0);
  colours.slice(256).forEach((c) => index.set(c, palette.reduce((best, p, i) => (far(p, c) < far(palette[best], c) ? i : best), 0)));
  return { palette, index };
}

function chunk(name, data) {
  const out = Buffer.alloc(12 + data.length);
  out.writeUInt32BE(data.length, 0);
  out.write(name, 4, "latin1");
  data.copy(out, 8);
  out.writeUInt32BE(crc(out.subarray(4, 8 + data.length)), 8 + data.length);
  return out;
}

function crc(bytes) {
  let c = 0xffffffff;
  for (const byte of bytes) {
    c ^= byte;
    for (let k = 0; k < 8; k++) c = c & 1 ? (c >>> 1) ^ 0xedb88320 : c >>> 1;
  }
  return (c ^ 0xffffffff) >>> 0;
}

module.exports = function smaller(png) {
  const { width, height, channels, out } = pixels(png), counts = new Map(), wide = new Uint32Array(width * height);
  for (let i = 0; i < wide.length; i++) {
    const at = i * channels;
    wide[i] = (out[at] << 16) | (out[at + 1] << 8) | out[at + 2];
    counts.set(wide[i], (counts.get(wide[i]) || 0) + 1);
  }
  const { palette, index } = paletteOf(counts), rows = Buffer.alloc((width + 1) * height), head = Buffer.alloc(13);
  for (let y = 0; y < height; y++) for (let x = 0; x < width; x++) rows[y * (width + 1) + 1 + x] = index.get(wide[y * width + x]);
  head.writeUInt32BE(width, 0);
  head.writeUInt32BE(height, 4);
  head.set([8, 3, 0, 0, 0], 8);
  const colours = Buffer.from(palette.flatMap((c) => [c >> 16, (c >> 8) & 255, c & 255]));
  return Buffer.concat([SIGNATURE, chunk("IHDR", head), chunk("PLTE", colours), chunk("IDAT", zlib.deflateSync(rows, { level: 9 })), chunk("IEND", Buffer.alloc(0))]);
};
