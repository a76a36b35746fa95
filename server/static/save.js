// Pictures as files.
import { zip } from "./zip.js";

// Pixels of a PNG file for each pixel of CSS.
const SCALE = 4;
// Ink can go beyond the box of a formula, so that files have a margin, in pixels of CSS.
const MARGIN = 2;

export function save(blob, name) {
  const link = document.createElement("a");
  link.href = URL.createObjectURL(blob);
  link.download = name;
  link.click();
  setTimeout(() => URL.revokeObjectURL(link.href), 10000);
}

// Saves one file as it is and several as an archive, since browsers refuse a second download.
export async function saveAll(blobs, ending) {
  if (blobs.length === 1) {
    save(blobs[0], `formula.${ending}`);
    return;
  }
  const files = blobs.map(async (blob, at) => ({
    name: `formula-${at + 1}.${ending}`,
    bytes: new Uint8Array(await blob.arrayBuffer()),
  }));
  save(zip(await Promise.all(files)), "formulas.zip");
}

export function svgFile(svg) {
  return new Blob([svg], { type: "image/svg+xml" });
}

// The picture of an SVG file in black on white.
export async function pngFile(svg) {
  const image = new Image();
  image.src = URL.createObjectURL(svgFile(svg));
  try {
    await image.decode();
    const canvas = document.createElement("canvas");
    canvas.width = Math.ceil((image.width + 2 * MARGIN) * SCALE);
    canvas.height = Math.ceil((image.height + 2 * MARGIN) * SCALE);
    const context = canvas.getContext("2d");
    context.fillStyle = "white";
    context.fillRect(0, 0, canvas.width, canvas.height);
    context.drawImage(image, MARGIN * SCALE, MARGIN * SCALE, image.width * SCALE, image.height * SCALE);
    const blob = await new Promise((resolve) => canvas.toBlob(resolve, "image/png"));
    if (!blob) throw new Error("the formula is too large for a PNG file");
    return blob;
  } finally {
    URL.revokeObjectURL(image.src);
  }
}
