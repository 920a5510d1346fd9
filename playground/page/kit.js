"use strict";
// The kit as a WebAssembly module: bytes in, bytes out. This text is run in workers alone.
// Sizes and addresses are 64-bit numbers of the module, so BigInts here, though each is below 2 ^ 32.

const MEGABYTE = 1 << 20;

// An instance of the module, with its two calls.
async function makeKit(module) {
  const exported = (await WebAssembly.instantiate(module, {})).exports;
  const utf8 = new TextEncoder();

  const bytesOf = (value) => (typeof value === "string" ? utf8.encode(value) : value);
  const memory = () => exported.memory.buffer;

  // Takes rooms in the module's memory for the time of a call.
  function withRooms(call) {
    const taken = [];
    const room = (size) => {
      const at = exported.page_take(BigInt(size));
      if (!Number(at)) throw new Error("no memory");
      taken.push(at);
      return at;
    };
    try {
      return call({
        room,
        given(value) {
          const bytes = bytesOf(value);
          const at = room(bytes.length || 1);
          new Uint8Array(memory(), Number(at), bytes.length).set(bytes);
          return [at, BigInt(bytes.length)];
        },
        bytes: (at, count) => new Uint8Array(memory().slice(Number(at), Number(at) + count)),
      });
    } finally {
      taken.reverse().forEach((at) => exported.page_give(at));
    }
  }

  return {
    // A command line: its words without the name of the program, the bytes of FILE and of the input, and those of the file of --ocode.
    serve(words, file, input, rooms = { output: 4 * MEGABYTE, lines: 4 * MEGABYTE }, ocode = "") {
      return withRooms(({ room, given, bytes }) => {
        const output = room(rooms.output), lines = room(rooms.lines), answer = room(24);
        exported.bk_serve(
          ...given(["bcpl", ...words].join("\n")), ...given(file), ...given(ocode), ...given(input),
          output, BigInt(rooms.output), lines, BigInt(rooms.lines), answer,
        );
        const told = new DataView(memory(), Number(answer), 24);
        const outputBytes = Number(told.getBigUint64(0, true)), lineBytes = Number(told.getBigUint64(8, true));
        return { status: told.getUint8(16), output: bytes(output, outputBytes), lines: bytes(lines, lineBytes) };
      });
    },

    // INTCODE after so many steps, in a store of so many words.
    step(code, input, steps, words, rooms = { output: MEGABYTE, line: 4096 }) {
      return withRooms(({ room, given, bytes }) => {
        const output = room(rooms.output), line = room(rooms.line), store = room(4 * words), standing = room(48);
        exported.bk_step(
          ...given(code), ...given(input), BigInt(steps), words,
          output, BigInt(rooms.output), line, BigInt(rooms.line), store, BigInt(words), standing,
        );
        const told = new DataView(memory(), Number(standing), 48);
        const [outputBytes, lineBytes, storeWords] = [0, 8, 16].map((at) => Number(told.getBigUint64(at, true)));
        const [c, p, a, b, stack] = [24, 28, 32, 36, 40].map((at) => told.getUint32(at, true));
        return {
          status: told.getUint8(44), c, p, a: a | 0, b: b | 0, stack,
          output: bytes(output, outputBytes), line: bytes(line, lineBytes),
          store: new Int32Array(bytes(store, 4 * storeWords).buffer),
        };
      });
    },

    held: () => Number(exported.page_held()),
    memory: () => memory().byteLength,
  };
}
