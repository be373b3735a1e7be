// Frames of both protocols: a header with the length of the body in bytes, then the body.

const BRACE = 123; // begins each body; no header has one
const [encoder, decoder] = [new TextEncoder(), new TextDecoder()];

export function concat(parts) {
  const bytes = new Uint8Array(parts.reduce((length, part) => length + part.length, 0));
  let at = 0;
  for (const part of parts) {
    bytes.set(part, at);
    at += part.length;
  }
  return bytes;
}

export function encodeFrame(message) {
  const body = encoder.encode(JSON.stringify(message));
  return concat([encoder.encode(`Content-Length: ${body.length}\r\n\r\n`), body]);
}

export class FrameReader {
  bytes = new Uint8Array(0);

  // The messages that this part completes.
  *read(part) {
    this.bytes = concat([this.bytes, part]);
    for (;;) {
      const begin = this.bytes.indexOf(BRACE);
      if (begin < 0) return;
      const header = /^content-length: *(\d+)\r\n\r\n$/i.exec(decoder.decode(this.bytes.subarray(0, begin)));
      if (!header) throw new Error("it does not write frames");
      const end = begin + Number(header[1]);
      if (this.bytes.length < end) return;
      const message = JSON.parse(decoder.decode(this.bytes.subarray(begin, end)));
      this.bytes = this.bytes.subarray(end);
      yield message;
    }
  }
}
