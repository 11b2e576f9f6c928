/**
 * Calls the package for JavaScript for tests/both: node both.mjs PACKAGE. Each line of the input is a request in JSON, and the line that
 * is written for it is the answer. Bytes are written in hexadecimal.
 */
import { createHash } from 'node:crypto';
import readline from 'node:readline';
import { pathToFileURL } from 'node:url';

const [qr, contents] = await Promise.all(['qrproved', 'contents'].map((it) => import(pathToFileURL(`${process.argv[2]}/${it}.js`))));

const bytesOf = (text) => Uint8Array.from(Buffer.from(text, 'hex'));
const hashOf = (modules) => createHash('sha256').update(modules).digest('hex');

/** Returns what a function returns, or its error. */
function tried(call) {
  try {
    return call();
  } catch (error) {
    return { error: error.name, message: error.message };
  }
}

/** Returns an input as the package takes it: a text or bytes, perhaps of GS1 data. */
function inputOf({ text, bytes, isGs1 }) {
  const data = text ?? bytesOf(bytes);
  return isGs1 ? { gs1: data } : data;
}

/** Returns what an object has, with what its class computes. */
function allOf(object) {
  const described = Object.entries(Object.getOwnPropertyDescriptors(Object.getPrototypeOf(object)));
  return { ...object, ...Object.fromEntries(described.filter(([, it]) => it.get).map(([name]) => [name, object[name]])) };
}

function encoded({ input, options, isSeries }) {
  return isSeries ? qr.encodeSeries(inputOf(input), options) : [qr.encode(inputOf(input), options)];
}

/** A content of these bytes, as a symbol may have it. */
function contentWith(bytes, ecis, gs1) {
  return new qr.Content({ data: bytesOf(bytes), version: 1, header: null, ecis: ecis.map(([begin, number]) => ({ begin, number })), gs1, application: null });
}

const CALLS = {
  encode: (asked) => encoded(asked).map((it) => [it, qr.read(it), tried(() => qr.read(it).text())]),
  text: ({ bytes, ecis }) => contentWith(bytes, ecis, false).text(),
  fields: ({ bytes }) => contentWith(bytes, [], true).fields(),
  draw: (asked) => {
    const symbols = encoded(asked), { type, margin, mm } = asked;
    return [qr.draw(symbols, { type, margin }), mm === null ? null : symbols[0].svg({ margin, mm, quiet: true })];
  },
  file: (asked) => {
    const symbols = encoded(asked), { kind, isSeries, chosen: { fit_mm: fitMm, ...chosen } } = asked, options = { ...chosen, ...(fitMm === undefined ? {} : { fitMm }), quiet: true };
    if (kind === 'size') return Object.values(symbols[0].printedSize(chosen));
    if (!isSeries) return hashOf(symbols[0][kind](options));
    if (asked.sheet) {
      const { label_width: labelWidth, label_height: labelHeight, ...sheet } = asked.sheet, captions = asked.captions?.slice(0, symbols.length);
      const given = asked.paper === null ? { ...sheet, labelWidth, labelHeight } : qr.paper(asked.paper, { first: sheet.first });
      return hashOf(qr.sheetsOf(symbols, given, { ...options, captions }));
    }
    return hashOf(['svg', 'pdf', 'eps'].includes(kind) ? qr.documentOf(symbols, { type: kind, ...options }) : qr.labels(symbols, { type: kind, ...options }));
  },
  parse: ({ text }) => {
    const { type, margin, squares } = qr.parseDrawing(text);
    return [type, margin, squares.map((it) => [hashOf(it), Math.sqrt(it.length)])];
  },
  find: ({ grey, width, height, table, unread }) => {
    const pixels = bytesOf(grey), data = new Uint8Array(4 * pixels.length);
    table.map(bytesOf).forEach((channel, k) => pixels.forEach((bright, at) => { data[4 * at + k] = channel[bright]; }));
    return qr.find({ data, width, height }, { unread }).map((it) => [hashOf(it.modules), it.side, it.corners, it.quarterTurns, it.isInverse, it.isMirrored,
      it.isRead, tried(() => it.mend().content.text())]);
  },
  content: ({ kind, fields }) => {
    const text = contents[kind](fields);
    return [text, kind === 'payment' ? Buffer.from(contents.paymentBytes(text)).toString('hex') : null];
  },
  gs1_of: ({ link }) => contents.gs1Of(link),
  mend: ({ modules }) => allOf(qr.mend(Uint8Array.from(modules, Number))),
};

for await (const line of readline.createInterface({ input: process.stdin })) {
  const request = JSON.parse(line);
  process.stdout.write(`${JSON.stringify(tried(() => CALLS[request.call](request)))}\n`);
}
