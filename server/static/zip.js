// A ZIP archive of files that are stored as they are (PKWARE's APPNOTE, 4.3).

const CRC_TABLE = Uint32Array.from({ length: 256 }, (_, byte) => {
  let rest = byte;
  for (let bit = 0; bit < 8; bit++) rest = rest & 1 ? (rest >>> 1) ^ 0xedb88320 : rest >>> 1;
  return rest;
});

function crc32(bytes) {
  let crc = 0xffffffff;
  for (const byte of bytes) crc = (crc >>> 8) ^ CRC_TABLE[(crc ^ byte) & 255];
  return (crc ^ 0xffffffff) >>> 0;
}

// Numbers of 2 or 4 bytes, the lowest byte first, as [size, value].
function fields(...numbers) {
  const bytes = [];
  for (const [size, value] of numbers) {
    for (let at = 0; at < size; at++) bytes.push((value >>> (8 * at)) & 255);
  }
  return Uint8Array.from(bytes);
}

// What the header of a file and its entry in the directory have in common. The date is 1 January 1980.
function description(name, bytes) {
  return [
    [2, 20], [2, 0], [2, 0], [2, 0], [2, 33],
    [4, crc32(bytes)], [4, bytes.length], [4, bytes.length], [2, name.length], [2, 0],
  ];
}

// The archive of `files`, each with `name` and `bytes`.
export function zip(files) {
  const parts = [];
  const directory = [];
  let offset = 0;
  for (const file of files) {
    const name = new TextEncoder().encode(file.name);
    const head = fields([4, 0x04034b50], ...description(name, file.bytes));
    parts.push(head, name, file.bytes);
    directory.push(
      fields([4, 0x02014b50], [2, 20], ...description(name, file.bytes), [2, 0], [2, 0], [2, 0], [4, 0], [4, offset]),
      name,
    );
    offset += head.length + name.length + file.bytes.length;
  }
  const size = directory.reduce((sum, part) => sum + part.length, 0);
  const end = fields([4, 0x06054b50], [2, 0], [2, 0], [2, files.length], [2, files.length], [4, size], [4, offset], [2, 0]);
  return new Blob([...parts, ...directory, end], { type: "application/zip" });
}
