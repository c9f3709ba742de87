"use strict";
// Runs the proved module: the commands of threefield over texts in memory.
//
//   const solver = await loadSolver(bytes);   // with 64-bit memory, or lowered to 32-bit memory
//   solver.run(request)                       // { status, output: Uint8Array, errors: string }
//   solver.can("plan")                        // whether the module has the command
//   solver.module                             // compiled: loadSolver takes it in place of bytes
//
// The module imports nothing. What is trusted of this script, since no proof reads it:
// - The buffers and the space that an export is called with lie apart from one another and from
//   the module's own memory, their addresses are multiples of 16, and their lengths are what is
//   said.
// - The space is used for nothing else afterwards: each run has an instance of its own.
const loadSolver = (() => {
  const PAGE = 65536;
  // The most memory that a run is given for its work, in bytes.
  const MOST_SPACE = 8 * 2 ** 30;
  // Where more can't be had, half of it is tried, as long as that is more than this and than what
  // was too little.
  const LEAST_SPACE = 2 ** 20;
  const NO_MEMORY = "threefield: want of memory\n";
  const NONE = new Uint8Array(0);

  // A number that a module's field holds, or else one that the module refuses there.
  const field = (number, otherwise) =>
    Number.isInteger(number) && number >= 0 && number <= 0xffffffff ? number : otherwise;

  // The numbers of a request in the order of the module's `Asking`, behind the three lengths.
  function numbers(request) {
    const format = request.format || { kind: "table" };
    const given = x => x !== null && x !== undefined;
    const pair = format.kind === "flow" && given(format.pair) ? format.pair : null;
    return [
      given(request.machines) ? 1 : 0, field(request.machines, 0),
      { table: 0, wt: 1, flow: 2 }[format.kind],
      field(format.jobs, 0), field(format.index, 0),
      pair ? 1 : 0, pair ? field(pair[0], 0xffffffff) : 0, pair ? field(pair[1], 0xffffffff) : 0,
      request.answerVersion === 1 ? 1 : 2,
      request.certificate ? 1 : 0,
      given(request.columns) ? field(request.columns, 0) : 72,
      given(request.steps) ? 1 : 0, field(request.steps, 0),
    ];
  }

  // The texts of a request that the command reads, in the module's order: problem line, name,
  // instance, answer.
  function textsOf(request) {
    const encode = text => new TextEncoder().encode(text || "");
    const name = request.format && request.format.kind === "flow" ? request.format.name : "";
    const instance = request.instance || NONE, answer = request.answer || NONE;
    switch (request.command) {
      case "solve": case "report": case "bound": case "plan":
        return [encode(request.problem), encode(name), instance, NONE];
      case "check": case "evaluate":
        return [encode(request.problem), encode(name), instance, answer];
      case "gantt": case "picture": return [NONE, NONE, NONE, answer];
      case "problems": return [NONE, NONE, instance, NONE];
    }
    throw new TypeError(`no command ${request.command}`);
  }

  // Grows the memory by so many bytes, and tells whether that went well.
  function grow(memory, bytes) {
    const pages = Math.ceil(bytes / PAGE);
    try {
      // 32-bit memory takes a number here.
      try { memory.grow(BigInt(pages)); } catch (error) {
        if (!(error instanceof TypeError)) throw error;
        memory.grow(pages);
      }
      return true;
    } catch (error) {
      if (error instanceof RangeError) return false;
      throw error;
    }
  }

  // One call, with so many bytes for what is printed and so many for the work. `null` where the
  // memory could not be had.
  function call(module, request, texts, room, space) {
    const { exports } = new WebAssembly.Instance(module, {});
    const { memory } = exports;
    const begin = memory.buffer.byteLength;
    let end = begin;
    const place = bytes => {
      const at = end;
      end += Math.ceil(Math.max(bytes, 1) / 16) * 16;
      return at;
    };
    const total = texts.reduce((sum, text) => sum + text.length, 0);
    const given = place(16), lengths = place(16), asking = place(80), at = place(total);
    const out = place(room), start = place(space);
    if (!grow(memory, end - begin)) return null;
    const view = new DataView(memory.buffer), bytes = new Uint8Array(memory.buffer);
    view.setBigUint64(given, BigInt(start), true);
    view.setBigUint64(given + 8, BigInt(Math.floor(space / 16)), true);
    texts.slice(0, 3).forEach((text, k) => {
      view.setBigUint64(asking + 8 * k, BigInt(text.length), true);
    });
    numbers(request).forEach((number, k) => view.setUint32(asking + 24 + 4 * k, number, true));
    texts.reduce((to, text) => { bytes.set(text, to); return to + text.length; }, at);
    const takesAsking = request.command !== "picture" && request.command !== "problems";
    const asked = takesAsking ? [asking] : [];
    const words = [given, ...asked, at, total, out, room, lengths].map(BigInt);
    const status = exports["page_" + request.command](...words) & 255;
    const printed = Number(view.getBigUint64(lengths, true));
    const said = Number(view.getBigUint64(lengths + 8, true));
    if (printed + said > room) return { needs: printed + said };
    return {
      status,
      output: bytes.slice(out, out + printed),
      errors: new TextDecoder().decode(bytes.subarray(out + printed, out + printed + said)),
    };
  }

  // Runs a request, with more memory as it is needed.
  function run(module, request) {
    const texts = textsOf(request);
    const total = texts.reduce((sum, text) => sum + text.length, 0);
    let room = PAGE + (request.command === "picture" ? 32 : 8) * total;
    let space = 2 ** 24 + 32 * total;
    let tooLittle = LEAST_SPACE;
    for (;;) {
      const reply = call(module, request, texts, room, space);
      if (reply === null) {
        if (space <= 2 * tooLittle) return { status: 3, output: NONE, errors: NO_MEMORY };
        space = Math.floor(space / 2);
      } else if (reply.needs) room = reply.needs;
      else if (reply.status === 3 && space < MOST_SPACE) {
        tooLittle = space;
        space *= 4;
      } else return reply;
    }
  }

  return async source => {
    const isCompiled = source instanceof WebAssembly.Module;
    const module = isCompiled ? source : await WebAssembly.compile(source);
    const exported = new Set(WebAssembly.Module.exports(module).map(({ name }) => name));
    const can = command => exported.has("page_" + command);
    return { module, can, run: request => run(module, request) };
  };
})();
if (typeof module !== "undefined") module.exports = { loadSolver };
