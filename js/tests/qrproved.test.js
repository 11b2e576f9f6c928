/** The package as it is installed: node --test, with the folder of the package in the variable QRPROVED, or out/npm/package. */
import assert from 'node:assert/strict';
import { execFileSync } from 'node:child_process';
import { createHash } from 'node:crypto';
import { readFileSync } from 'node:fs';
import { fileURLToPath, pathToFileURL } from 'node:url';
import { resolve } from 'node:path';
import { test } from 'node:test';
import { inflateSync } from 'node:zlib';

const folder = process.env.QRPROVED ?? fileURLToPath(new URL('../../out/npm/package', import.meta.url));
const at = pathToFileURL(resolve(folder, 'qrproved.js')).href;
const {
  PAPERS, Found, documentOf, draw, encode, encodeSeries, find, labels, load, mend, paper, parseDrawing, parsePicture, read, sheetsOf, ...errors
} = await import(at);

// The memory of the module, which the package keeps to itself.
let memory;
const { Instance } = WebAssembly;
WebAssembly.Instance = function (...words) {
  const instance = new Instance(...words);
  memory = instance.exports.memory;
  return instance;
};

// ISO/IEC 18004:2015, Annex I: 01234567 at 1-M, under mask 0.
const EIGHT_DIGITS = Uint8Array.from(`
111111100011101111111
100000101110001000001
101110100110001011101
101110100101101011101
101110101101101011101
100000100001001000001
111111101010101111111
000000000000000000000
101010100010100010010
110100001011010100010
000110111011011101110
110011010101110110010
001001110111011100001
000000001010001000010
111111100000100010001
100000100010001001011
101110101110101011101
101110100101010101110
101110101101011100101
100000100001110111000
111111101001011100101`.replaceAll('\n', ''), Number);

const bytes = (length, start = 0) => Uint8Array.from({ length }, (_, k) => (start + k * 7) & 255);
const inverted = (symbol, ...places) => symbol.modules.map((module, place) => (places.includes(place) ? 1 - module : module));

/** Returns whether an error is of its class, with its status and its name in C. */
const refused = (name, status, code) => (error) => [errors[name], errors.QRError, Error].every((kind) => error instanceof kind)
  && error.name === name && error.status === status && error.code === code && error.message !== '';

test('eight digits at 1-M', () => {
  const symbol = encode('01234567', { level: 'M', boost: false });
  assert.deepEqual([symbol.version, symbol.side, symbol.level, symbol.modules.length], [1, 21, 'M', 441]);
  assert.equal(read(symbol).text(), '01234567');
  assert.equal(read(EIGHT_DIGITS).text(), '01234567');
  const mended = mend(EIGHT_DIGITS);
  assert.deepEqual([mended.content.text(), mended.level, mended.mask, mended.isSound], ['01234567', 'M', 0, true]);
  // the finder patterns, the dark module and a separator
  for (let k = 0; k < 7; k++) assert.ok(symbol.dark(0, k) && symbol.dark(k, 0) && symbol.dark(20, k) && symbol.dark(k, 20));
  assert.ok(symbol.dark(13, 8) && !symbol.dark(7, 7));
});

test('a logo is a whole number of modules or a fraction', () => {
  for (const logo of [1.5, -0.2, 177.5]) {
    assert.throws(() => encode('A', { logo }), { name: 'SettingsError', message: `logo is a number of modules, or a fraction of the side between 0 and 1, and not ${logo}` });
  }
});

test('a mask by hand', () => {
  const symbol = encode('01234567', { level: 'M', boost: false, mask: 0 });
  assert.deepEqual([symbol.modules, symbol.mask, symbol.level], [EIGHT_DIGITS, 0, 'M']);
  const parts = encodeSeries('SHELF 12, CRATE 7', { version: 1, level: 'H' }).length;
  assert.ok(parts > 1);
  for (let mask = 0; mask < 8; mask++) {
    const mended = mend(encode('Shelf 12', { mask }));
    assert.deepEqual([mended.mask, mended.wrongModules, mended.content.text()], [mask, 0, 'Shelf 12']);
    const logo = encode('Shelf 12', { mask, logo: 3 });
    assert.deepEqual([logo.mask, logo.logo, mend(logo).mask, read(logo).text()], [mask, 3, mask, 'Shelf 12']);
    const series = encodeSeries('SHELF 12, CRATE 7', { version: 1, level: 'H', mask });
    assert.deepEqual(series.map((it) => [it.mask, mend(it).mask, mend(it).isSound]), Array(parts).fill([mask, mask, true]));
  }
  for (const mask of [-1, 8, 2 ** 32, 1.5]) {
    assert.throws(() => encode('A', { mask }), { name: 'SettingsError', message: `mask is a whole number from 0 to 7, and not ${mask}` });
    assert.throws(() => encodeSeries('A', { version: 1, mask }), { name: 'SettingsError' });
  }
  assert.throws(() => encode('A', { mask: '3' }), TypeError);
});

test('defaults are those of the command', () => {
  const symbol = encode('A', { boost: false });
  assert.deepEqual([symbol.level, symbol.version], ['L', 1]);
  assert.equal(symbol.svg(), symbol.svg({ margin: 4 }));
  assert.match(symbol.svg(), /^<\?xml version="1\.0" encoding="UTF-8"\?>\n<svg [^>]*viewBox="0 0 29 29"/);
  assert.equal(symbol.text(), draw(symbol, { type: 'UTF8', margin: 4 }));
  assert.equal(`${symbol}`, symbol.text());
  assert.equal(draw(symbol), symbol.text());
});

test('a drawing of more bytes than most has all of its lines', () => {
  const symbol = encode('A'), text = draw(symbol, { type: 'ASCII', margin: 100 }), lines = text.split('\n');
  assert.deepEqual([lines.length, lines[0].length, lines.at(-1)], [222, 442, '']);
  assert.deepEqual(parseDrawing(text).squares, [symbol.modules]);
});

test('inputs: strings as UTF-8, bytes as they are', () => {
  const text = 'Zażółć ✓ 🙂';
  assert.equal(read(encode(text)).text(), text);
  assert.deepEqual(encode(text, { eci: false }).modules, encode(new TextEncoder().encode(text)).modules);
  assert.deepEqual(read(encode(bytes(256))).data, bytes(256));
  assert.deepEqual(read(encode(Buffer.from('buffer'))).text(), 'buffer');
  assert.throws(() => read(encode(Uint8Array.of(255))).text(), TypeError);
  assert.equal(read(encode('\ufeffmarked')).text(), '\ufeffmarked');
  const others = [undefined, null, 12, ['a'], {}, new ArrayBuffer(2), '\ud800', 'a\udc00b'];
  for (const wrong of others) assert.throws(() => encode(wrong), TypeError);
});

test('settings', () => {
  assert.equal(encode('a', { version: 7, level: 'h' }).version, 7);
  assert.equal(encode('a', { version: undefined, level: undefined, boost: false }).level, 'L');
  assert.ok(encode('1'.repeat(100)).version < encode('1'.repeat(100), { rule: 'bytes_only' }).version);
  const kanji = Uint8Array.from({ length: 60 }, (_, k) => (k % 2 ? 0x5F : 0x93));
  assert.ok(encode(kanji, { rule: 'with_kanji' }).version < encode(kanji).version);
  for (const wrong of [{ version: 0 }, { version: 41 }, { version: 1.5 }, { version: NaN }, { level: 'X' }, { rule: 'numeric' }, { eci: -1 },
    { eci: 1000000 }, { eci: 1000001 }, { eci: 26, rule: 'with_kanji' }]) {
    assert.throws(() => encode('a', wrong), refused('SettingsError', 5, 'SETTINGS'), JSON.stringify(wrong));
  }
  for (const wrong of [{ errorCorrectionLevel: 'H' }, { version: '7' }, { level: 1 }, { rule: null }, { eci: true }, { eci: '26' }, { eci: null },
    { boost: 1 }, { boost: null }, null, 'H', 7]) {
    assert.throws(() => encode('a', wrong), TypeError, JSON.stringify(wrong));
  }
});

test('JSON', () => {
  const symbol = encode('01234567', { level: 'M', boost: false });
  const rows = Array.from({ length: 21 }, (_, row) => symbol.modules.slice(21 * row, 21 * row + 21).join(''));
  assert.deepEqual(JSON.parse(JSON.stringify(symbol)), { version: 1, side: 21, mask: symbol.mask, level: 'M', rows });
  assert.equal(rows[0].slice(0, 7) + rows[20].slice(0, 7), '1'.repeat(14));
  const content = { data: [65, 255], version: 1, header: null, ecis: [], gs1: false, application: null, kanji: false };
  const mended = mend(encode(Uint8Array.of(65, 255)));
  assert.deepEqual(JSON.parse(JSON.stringify(mended.content)), content);
  assert.deepEqual(JSON.parse(JSON.stringify(mended)).content, content);
});

test('refusals', () => {
  assert.throws(() => encode(''), refused('EmptyError', 1, 'EMPTY'));
  assert.throws(() => encodeSeries(new Uint8Array(0), { version: 1 }), refused('EmptyError', 1, 'EMPTY'));
  assert.throws(() => encode('x'.repeat(3000)), refused('TooLongError', 2, 'TOO_LONG'));
  assert.throws(() => encode('x'.repeat(200000)), refused('TooLongError', 2, 'TOO_LONG'));
  assert.throws(() => encodeSeries('x'.repeat(300), { version: 1, level: 'H' }), refused('TooManyError', 3, 'TOO_MANY'));
  assert.throws(() => encodeSeries('x'), TypeError);
  for (const length of [0, 1, 440, 442, 576, 178 * 178, 181 * 181]) {
    assert.throws(() => read(new Uint8Array(length)), refused('SideError', 7, 'SIDE'), `${length}`);
    assert.throws(() => mend(new Uint8Array(length)), refused('SideError', 7, 'SIDE'), `${length}`);
  }
  assert.throws(() => read(new Uint8Array(441)), refused('FormatError', 8, 'FORMAT'));
  assert.throws(() => mend(new Uint8Array(441).fill(2)), refused('FormatError', 8, 'FORMAT'));
  assert.throws(() => mend(new Uint8Array(441).fill(3)), refused('SettingsError', 5, 'SETTINGS'));
  const symbol = encode('check');
  assert.throws(() => read(inverted(symbol, 20 * 21 + 20)), refused('CheckError', 9, 'CHECK'));
  assert.throws(() => mend(symbol.modules.map((it, k) => (k % 21 > 8 && k > 189 ? 1 - it : it))), refused('CheckError', 9, 'CHECK'));
  for (const wrong of [undefined, 'text', [1], new ArrayBuffer(441)]) assert.throws(() => read(wrong), TypeError);
});

test('what is neither a square nor a picture', () => {
  const symbol = encode('A');
  for (const call of [read, mend]) {
    for (const given of ['label.png', new Uint8ClampedArray(4), symbol.svg(), { width: 1, height: 1 }]) assert.throws(() => call(given), { name: 'TypeError', message: /a file of a picture is first drawn on a canvas/ });
    for (const given of [symbol.png(), new Uint8Array(0)]) assert.throws(() => call(given), { name: 'SideError', message: /a file of a picture is first drawn on a canvas/ });
  }
  for (const call of [find, parsePicture]) {
    for (const given of [symbol.png(), 'label.png', symbol.svg(), symbol]) assert.throws(() => call(given), { name: 'TypeError', message: /canvas/ });
  }
});

test('a refusal says how many bytes there were, and how many fit', () => {
  const bytes3000 = 'the input has 3,000 bytes and does not fit a symbol: version 40-';
  const wanted = [
    [{}, 'L holds 2,953 bytes, 4,296 alphanumeric characters or 7,089 digits'],
    [{ level: 'M', rule: 'bytes_only' }, 'M holds 2,331 bytes'],
    [{ level: 'Q', rule: 'with_kanji' }, 'Q holds 1,663 bytes, 2,420 alphanumeric characters, 3,993 digits or 1,024 kanji'],
    [{ level: 'H', version: 7 }, 'H holds 1,273 bytes, 1,852 alphanumeric characters or 3,057 digits'],
    // 23,648 bits, of which 12 and 28 are the header, and 20 the mode and the count of bytes
    [{ eci: 26, rule: 'bytes_only' }, 'L holds 2,952 bytes'],
    [{ eci: 3, rule: 'bytes_only' }, 'L holds 2,952 bytes'],
  ];
  for (const [options, text] of wanted) assert.throws(() => encode('x'.repeat(3000), options), { message: bytes3000 + text });
  assert.throws(() => encodeSeries('x'.repeat(1000), { version: 1, level: 'H' }),
    { message: 'the input has 1,000 bytes and takes more than 16 symbols of version 1-H' });
});

test('an engine that does not compile the module', () => {
  const script = `const { load, encode } = await import(${JSON.stringify(at)});
    WebAssembly.Module = function () { throw new WebAssembly.CompileError('refused'); };
    WebAssembly.instantiate = async () => { throw new WebAssembly.CompileError('refused'); };
    try { encode('a'); } catch (error) { console.log(error.message, error.cause.name); }
    await load().catch((error) => console.log(error.message, error.cause.name));`;
  const lines = execFileSync(process.execPath, ['--input-type=module', '-e', script], { encoding: 'utf8' }).trim().split('\n');
  assert.equal(lines.length, 2);
  for (const line of lines) assert.match(line, /does not compile .*\(refused\): .*'wasm-unsafe-eval'.* CompileError$/);
});

test('series', () => {
  const input = bytes(100), symbols = encodeSeries(input, { version: 2, level: 'Q' });
  const read16 = symbols.map(read), parity = input.reduce((sum, byte) => sum ^ byte, 0);
  assert.ok(symbols.length > 1 && symbols.every((it) => it.version === 2 && it.side === 25 && it.mask === null && it.level === 'Q'));
  assert.deepEqual(read16.map((it) => it.header), symbols.map((_, k) => ({ position: k, last: symbols.length - 1, parity })));
  assert.deepEqual(Uint8Array.from(read16.flatMap((it) => [...it.data])), input);
  assert.equal(encodeSeries('short', { version: 2 }).length, 1);
  assert.equal(read(encodeSeries('short', { version: 2 })[0]).header, null);
  assert.equal(draw(symbols, { type: 'ASCII' }), symbols.map((it) => it.text({ type: 'ASCII' })).join(''));
  assert.match(draw(symbols, { type: 'svg' }), new RegExp(`viewBox="0 0 33 ${33 * symbols.length}"`));
  assert.throws(() => draw([...symbols, encode('a', { version: 3 })]), refused('SettingsError', 5, 'SETTINGS'));
  assert.throws(() => draw([]), refused('SettingsError', 5, 'SETTINGS'));
  assert.throws(() => draw(symbols[0].modules), TypeError);
});

test('mending', () => {
  const symbol = encode('Shelf 12', { level: 'M', boost: false }), sound = mend(symbol), corner = 20 * 21 + 20;
  assert.deepEqual([sound.content.text(), sound.level, sound.mask, sound.content.version], ['Shelf 12', 'M', symbol.mask, 1]);
  assert.deepEqual([sound.isSound, sound.spent], [true, 0]);
  const one = mend(inverted(symbol, corner));
  assert.deepEqual([one.content.text(), one.isSound, one.wrongModules], ['Shelf 12', false, 1]);
  assert.deepEqual([one.changedMost, one.changedAllowed, one.spent], [1, 4, 0.25]);
  const unknown = symbol.modules.slice().fill(2, corner - 5);
  assert.deepEqual([mend(unknown).content.text(), mend(unknown).wrongModules, mend(unknown).changedMost], ['Shelf 12', 6, 0]);
  assert.equal(mend(inverted(symbol, 8)).wrongFormatModules, 1);
});

// A module of each of the first five codewords of version 1: row and column. In the symbol of eight digits the first three are dark, and the other two light.
const FIVE = [[20, 20], [16, 20], [12, 20], [9, 18], [13, 18]].map(([row, column]) => 21 * row + column);
const unread = (modules, places) => modules.map((module, place) => (places.includes(place) ? 2 : module));

test('what is spent for a scanner and here', () => {
  const of = ({ spentMost, worstMisread, worstUnknown, worstUnknownWrong, changedMost, changedAllowed, spent, spentHere, scannable, content }) =>
    [spentMost, worstMisread, worstUnknown, worstUnknownWrong, changedMost, changedAllowed, spent, spentHere, scannable, content.text()];
  const eight = '01234567';
  assert.deepEqual(of(mend(EIGHT_DIGITS)), [0, 0, 0, 0, 0, 4, 0, 0, true, eight]);
  assert.deepEqual(of(mend(unread(EIGHT_DIGITS, FIVE))), [5, 0, 5, 2, 0, 4, 5 / 4, 5 / 8, false, eight]);
  assert.deepEqual(of(mend(unread(EIGHT_DIGITS, FIVE.slice(0, 4)))), [4, 0, 4, 1, 0, 4, 1, 1 / 2, true, eight]);
  assert.deepEqual(of(mend(unread(EIGHT_DIGITS, FIVE.slice(3)))), [2, 0, 2, 2, 0, 4, 1 / 2, 1 / 4, true, eight]);
  const misread = EIGHT_DIGITS.map((module, place) => (place === FIVE[0] ? 1 - module : module));
  assert.deepEqual(of(mend(unread(misread, FIVE.slice(2)))), [5, 1, 3, 2, 1, 4, 1, 5 / 8, true, eight]);
  assert.deepEqual(of(mend(unread(misread, FIVE.slice(1)))), [6, 1, 4, 2, 1, 4, 5 / 4, 6 / 8, false, eight]);
  // a copy of the format information is in row 8 and column 8 at the upper left, the other one in both at the other corners
  const first = [0, 1, 2, 3].map((column) => 21 * 8 + column), second = [17, 18, 19, 20].map((row) => 21 * row + 8);
  const format = (...places) => {
    const { wrongFormatModules, wrongFormatLeast, spent, scannable, isSound } = mend(unread(EIGHT_DIGITS, places));
    return [wrongFormatModules, wrongFormatLeast, spent, scannable, isSound];
  };
  assert.deepEqual(format(...first, ...second), [8, 4, 0, false, false]);
  assert.deepEqual(format(...first.slice(1), ...second), [7, 3, 0, true, false]);
  assert.deepEqual(format(...first), [4, 0, 0, true, false]);
});

test('drawings', () => {
  const symbol = encode('A');
  for (const wrong of [{ margin: -1 }, { margin: 101 }, { margin: 0.5 }]) {
    for (const call of ['svg', 'text', 'png', 'dataURL']) assert.throws(() => symbol[call](wrong), refused('SettingsError', 5, 'SETTINGS'));
  }
  assert.throws(() => symbol.svg({ scale: 2 }), TypeError);
  const inside = symbol.svg().split('\n').slice(1).join('\n');
  assert.equal(symbol.svg({ inline: true }), inside);
  assert.equal(symbol.svg({ inline: true, mm: 29 }), inside.replace(' viewBox=', ' width="29.000mm" height="29.000mm" viewBox='));
  assert.match(inside, /^<svg [^<]*</);
  assert.equal(symbol.svg({ inline: false }), symbol.svg());
  assert.throws(() => symbol.svg({ inline: 1 }), TypeError);
  assert.throws(() => symbol.text({ type: 'PNG' }), refused('SettingsError', 5, 'SETTINGS'));
  assert.throws(() => symbol.png({ scale: 0 }), refused('SettingsError', 5, 'SETTINGS'));
  assert.throws(() => symbol.dark(21, 0), refused('SettingsError', 5, 'SETTINGS'));
  const ascii = symbol.text({ type: 'ASCII', margin: 0 }).split('\n');
  const drawn = (row) => Array.from({ length: 21 }, (_, column) => (symbol.dark(row, column) ? '##' : '  ')).join('');
  assert.deepEqual(ascii, [...Array.from({ length: 21 }, (_, row) => drawn(row)), '']);
  assert.match(symbol.dataURL({ type: 'svg' }), /^data:image\/svg\+xml,%3C%3Fxml/);
  assert.equal(decodeURIComponent(symbol.dataURL({ type: 'svg', margin: 2 }).split(',', 2)[1]), symbol.svg({ margin: 2 }));
  assert.deepEqual(Buffer.from(symbol.dataURL().split(',')[1], 'base64'), Buffer.from(symbol.png()));
});

/** Returns the chunks of a PNG image, whose checks are computed once more, bit by bit. */
function chunks(png) {
  const view = new DataView(png.buffer, png.byteOffset), found = [];
  assert.deepEqual([...png.slice(0, 8)], [137, 80, 78, 71, 13, 10, 26, 10]);
  for (let at = 8; at < png.length;) {
    const length = view.getUint32(at), named = png.slice(at + 4, at + 8 + length);
    let sum = 0xFFFFFFFF;
    for (const byte of named) {
      for (let bit = 0; bit < 8; bit++) sum = (sum ^ byte >> bit) & 1 ? sum >>> 1 ^ 0xEDB88320 : sum >>> 1;
    }
    assert.equal(view.getUint32(at + 8 + length), ~sum >>> 0, 'the check of a chunk');
    found.push([String.fromCharCode(...named.slice(0, 4)), named.slice(4)]);
    at += 12 + length;
  }
  return found;
}

test('PNG images have the modules, and lines with their filter byte', () => {
  const cases = [[1, 1, 0], [1, 8, 4], [2, 3, 4], [5, 7, 1], [7, 16, 4], [10, 100, 0], [20, 2, 9], [40, 1, 4], [40, 5, 4], [40, 24, 100]];
  for (const [version, scale, margin] of cases) {
    const symbol = encode(bytes(16 * version, version), { version, level: 'L', rule: 'bytes_only' }), { side } = symbol;
    const [[first, head], ...rest] = chunks(symbol.png({ scale, margin })), pixels = (side + 2 * margin) * scale;
    const parts = rest.filter(([name]) => name === 'IDAT').map(([, part]) => part), data = Buffer.concat(parts);
    assert.deepEqual([first, ...rest.map(([name]) => name)], ['IHDR', ...parts.map(() => 'IDAT'), 'IEND']);
    assert.deepEqual([...head], [0, 0, pixels >> 8, pixels & 255, 0, 0, pixels >> 8, pixels & 255, 1, 0, 0, 0, 0]);
    const raw = inflateSync(data), line = 1 + Math.ceil(pixels / 8);
    assert.equal(raw.length, line * pixels, `${pixels} lines`);
    let wrong = 0;
    for (let row = 0; row < pixels; row++) {
      wrong += raw[row * line] !== 0;
      for (let column = 0; column < pixels; column += scale > 8 ? 5 : 1) {
        const [at, across] = [row, column].map((it) => Math.floor(it / scale) - margin);
        const isDark = at >= 0 && at < side && across >= 0 && across < side && symbol.dark(at, across);
        wrong += (raw[row * line + 1 + (column >> 3)] >> (7 - (column & 7)) & 1) !== (isDark ? 0 : 1);
      }
    }
    assert.equal(wrong, 0, `version ${version}, scale ${scale}, margin ${margin}`);
  }
});

/**
 * Returns an image of symbols beside each other, in colours of red, green, blue and alpha. `turn` says for a place of the image where
 * it comes from.
 */
function imageOf(symbols, { scale = 3, margin = 4, dark = [0, 0, 0, 255], light = [255, 255, 255, 255], turn = (x, y) => [x, y] } = {}) {
  const side = (Math.max(...symbols.map((it) => it.side)) + 2 * margin) * scale, size = Math.floor(side);
  const data = new Uint8ClampedArray(4 * size * size * symbols.length), width = size * symbols.length;
  for (let place = 0; place < width * size; place++) {
    const [x, y] = turn(place % width, Math.floor(place / width), size), symbol = symbols[Math.floor(x / size)];
    const [column, row] = [x % size, y].map((it) => Math.floor(it / scale) - margin);
    const isInside = [row, column].every((it) => it >= 0 && it < symbol.side);
    data.set(isInside && symbol.dark(row, column) ? dark : light, 4 * place);
  }
  return { data, width, height: size };
}

const GREEN = [0, 90, 0, 255], YELLOW = [255, 255, 160, 255], CLEAR = [0, 0, 0, 0], WHITE = [255, 255, 255, 255];

test('symbols in images', () => {
  for (const [version, scale, margin] of [[1, 1, 0], [1, 1, 10], [2, 12, 3], [5, 2.5, 4], [7, 3.3, 4], [20, 2, 2], [40, 1, 4], [40, 2.2, 1]]) {
    const symbol = encode(`version ${version}`, { version });
    for (const [dark, light] of [[GREEN, YELLOW], [YELLOW, GREEN], [GREEN, CLEAR], [WHITE, CLEAR]]) {
      const found = parsePicture(imageOf([symbol], { scale, margin, dark, light }));
      assert.deepEqual(found, [symbol.modules], `${version} ${scale} ${margin} ${dark} ${light}`);
    }
  }
  const two = [encode('one', { level: 'H' }), encode('two', { version: 1 })];
  assert.deepEqual(parsePicture(imageOf(two)), two.map((it) => it.modules));
});

test('modules of an image between dark and light are not known', () => {
  const symbol = encode('Shelf 12', { level: 'H' }), image = imageOf([symbol], { scale: 4, margin: 4 }), wanted = symbol.modules.slice();
  for (const [row, column] of [[15, 15], [15, 16], [16, 15]]) {
    wanted[row * symbol.side + column] = 2;
    for (let y = 4 * (row + 4); y < 4 * (row + 5); y++) {
      for (let x = 4 * (column + 4); x < 4 * (column + 5); x++) image.data.set([128, 128, 128, 255], 4 * (y * image.width + x));
    }
  }
  const [modules] = parsePicture(image);
  assert.deepEqual(modules, wanted);
  assert.deepEqual([mend(modules).content.text(), mend(modules).wrongModules], ['Shelf 12', 3]);
});

test('symbols that are turned, mirrored, or light on dark', () => {
  const symbol = encode('Shelf 12', { version: 2 }), edge = 12, end = 12 + 3 * 25, corners = [[edge, edge], [end, edge], [end, end], [edge, end]];
  const turns = [(x, y) => [x, y], (x, y, size) => [y, size - 1 - x], (x, y, size) => [size - 1 - x, size - 1 - y], (x, y, size) => [size - 1 - y, x]];
  for (const [k, turn] of turns.entries()) {
    for (const isMirrored of [false, true]) {
      for (const isInverse of [false, true]) {
        const colours = isInverse ? { dark: WHITE, light: [0, 0, 0, 255] } : {};
        const [found, ...others] = find(imageOf([symbol], { ...colours, turn: (x, y, size) => (isMirrored ? turn(x, y, size).reverse() : turn(x, y, size)) }));
        assert.ok(found instanceof Found && others.length === 0);
        assert.deepEqual([found.modules, found.side, found.isMirrored, found.isInverse, found.isRead], [symbol.modules, 25, isMirrored, isInverse, true]);
        assert.deepEqual([found.quarterTurns, found.corners], [k, [...corners.slice(k), ...corners.slice(0, k)]]);
        assert.deepEqual([found.read().text(), found.mend().isSound], ['Shelf 12', true]);
      }
    }
  }
});

test('images without a symbol', () => {
  const symbol = encode('Shelf 12', { version: 2 }), none = { name: 'PictureError', message: 'no symbol is found in the picture' };
  const white = { data: new Uint8ClampedArray(400).fill(255), width: 10, height: 10 };
  for (const image of [imageOf([symbol], { scale: 0.6 }), white]) {
    assert.deepEqual(find(image), []);
    for (const call of [parsePicture, read, mend]) assert.throws(() => call(image), none);
  }
  const sized = { width: 1, height: 1 };
  for (const wrong of [undefined, null, {}, symbol, { data: new Uint8Array(3), ...sized }, { data: [0, 0, 0, 0], ...sized }]) {
    for (const call of [find, parsePicture]) assert.throws(() => call(wrong), TypeError);
  }
  assert.throws(() => find({ data: new Uint8Array(4 * 32768), width: 32768, height: 1 }), refused('SettingsError', 5, 'SETTINGS'));
  assert.throws(() => find(white, { unread: 1 }), { name: 'TypeError', message: /unread is true or false/ });
  assert.throws(() => find(white, { all: true }), { name: 'TypeError', message: 'there is no option all; there are unread' });
});

test('a picture is read in place of a square', () => {
  const symbol = encode('Shelf 12'), image = imageOf([symbol]);
  assert.deepEqual([read(image).text(), mend(image).content.text(), mend(find(image)[0]).isSound], ['Shelf 12', 'Shelf 12', true]);
  const why = { name: 'PictureError', message: 'the picture shows 2 symbols: find(picture) returns all of them' };
  for (const call of [read, mend]) assert.throws(() => call(imageOf([symbol, symbol])), why);
});

test('a symbol that cannot be mended', () => {
  const symbol = encode('Shelf 12', { version: 3 }), { side } = symbol, spoilt = symbol.modules.slice();
  spoilt.forEach((module, place) => {
    const row = Math.floor(place / side), column = place % side;
    if (row > 8 && column > 8 && row < 20) spoilt[place] = 1 - module;
  });
  const image = imageOf([{ side, dark: (row, column) => spoilt[row * side + column] === 1 }]);
  assert.deepEqual(find(image), []);
  const [found] = find(image, { unread: true });
  assert.deepEqual([found.modules, found.isRead], [spoilt, false]);
  for (const call of [() => found.mend(), () => mend(image), () => mend(spoilt)]) assert.throws(call, refused('CheckError', 9, 'CHECK'));
});

/** Returns images beside each other on white. */
function beside(...images) {
  const width = images.reduce((sum, it) => sum + it.width, 0), height = Math.max(...images.map((it) => it.height));
  const data = new Uint8ClampedArray(4 * width * height).fill(255);
  let left = 0;
  for (const it of images) {
    for (let y = 0; y < it.height; y++) data.set(it.data.subarray(4 * y * it.width, 4 * (y + 1) * it.width), 4 * (y * width + left));
    left += it.width;
  }
  return { data, width, height };
}

/** Returns an image of a function of its rows and columns, which returns the brightness. */
function imageBy(width, height, bright) {
  const data = new Uint8ClampedArray(4 * width * height).fill(255);
  for (let at = 0; at < width * height; at++) data.fill(bright(Math.floor(at / width), at % width), 4 * at, 4 * at + 3);
  return { data, width, height };
}

// The digits 888 in DejaVu Sans of 10 pixels, as Pillow 9.4 draws them: the brightness of a pixel has two digits.
const CAPTION = `
ff8f180c4ff2ffff8f180c4ff2ffff8f180c4ff2
ea0fd8f24e8fffea0fd8f24e8fffea0fd8f24e8f
f41fd9f24eaafff41fd9f24eaafff41fd9f24eaa
ff97030047fbffff97030047fbffff97030047fb
d126e1f46b7dffd126e1f46b7dffd126e1f46b7d
c225e1f46b6bffc225e1f46b6bffc225e1f46b6b
fe72140a43e4fffe72140a43e4fffe72140a43e4`.trim().split('\n');

test('what looks like a symbol beside one is left out, and what is one is read', () => {
  const symbol = encode('Shelf 12'), label = imageOf([symbol], { scale: 4 }), two = encode('two');
  const caption = imageBy(40, label.height, (row, column) => {
    const place = 2 * (column - 10), line = CAPTION[row - 50] ?? '';
    return place >= 0 && place < line.length ? parseInt(line.slice(place, place + 2), 16) : 255;
  });
  assert.deepEqual(parsePicture(beside(label, caption)), [symbol.modules]);
  assert.deepEqual(parsePicture(beside(caption, label)), [symbol.modules]);
  assert.throws(() => parsePicture(caption), errors.PictureError);
  const turned = imageOf([two], { turn: (x, y, size) => [size - 1 - y, x] });
  const all = find(beside(label, turned, imageOf([two], { scale: 1.6 })));
  assert.deepEqual(all.map((it) => [it.mend().content.text(), it.quarterTurns]), [['Shelf 12', 0], ['two', 3], ['two', 0]]);
});

test('a symbol in noise, and more symbols than one search finds', () => {
  const symbol = encode('Shelf 12'), label = imageOf([symbol]), size = 300, from = 100;
  let state = 1;
  const noise = imageBy(size, size, (row, column) => {
    const [y, x] = [row - from, column - from], isLabel = y >= 0 && x >= 0 && y < label.height && x < label.width;
    state = (Math.imul(state, 1664525) + 1013904223) >>> 0;
    return isLabel ? label.data[4 * (y * label.width + x)] : state >>> 31 ? 0 : 255;
  });
  assert.deepEqual(parsePicture(noise), [symbol.modules]);
  const many = Array.from({ length: 72 }, (_, k) => encode(`Shelf ${k}`, { version: 1, level: 'M' })), rows = [];
  for (let k = 0; k < 72; k += 8) rows.push(imageOf(many.slice(k, k + 8), { margin: 6 }));
  const data = Uint8ClampedArray.from(rows.flatMap((row) => [...row.data]));
  assert.deepEqual(parsePicture({ data, width: rows[0].width, height: 9 * rows[0].height }), many.map((it) => it.modules));
});

test('the brightness of a colour is rounded once', async () => {
  const { greysOf } = await import(new URL('pictures.js', at)), steps = [0, 1, 15, 60, 127, 128, 195, 250, 254, 255];
  const colours = steps.flatMap((red) => steps.flatMap((green) => steps.flatMap((blue) => [[red, green, blue, 255], [red, green, blue, (red + 7 * green) % 256]])));
  const [onLight, onDark] = greysOf({ data: Uint8Array.from(colours.flat()) });
  colours.forEach(([red, green, blue, alpha], k) => {
    // (ITU-R BT.601; the shares have 16 bits)
    const bright = (0.299 * red + 0.587 * green + 0.114 * blue) * alpha / 255, ground = 255 - alpha;
    for (const [grey, wanted] of [[onLight, bright + ground], [onDark, bright]]) assert.ok(Math.abs(grey[k] - wanted) <= 0.503, `${colours[k]}: ${grey[k]}`);
  });
  assert.equal([...greysOf({ data: Uint8Array.of(1, 2, 3, 255) })].length, 1);
});

test('files for printers and for print', () => {
  const symbol = encode('A'), text = (file) => Buffer.from(file).toString('latin1'); // 29 modules wide with its margin
  assert.match(text(symbol.zpl({ x: 12, y: 345 })), /^\^XA\n\^FO12,345\^GFA,1740,1740,15,,:::.*\^FS\n\^XZ\n$/);
  assert.match(text(symbol.tspl({ scale: 2, x: 3 })), /^BITMAP 3,0,8,58,0,/);
  assert.deepEqual([...symbol.escpos({ scale: 9 }).slice(0, 8)], [0x1D, 0x76, 0x30, 0, 33, 0, 255, 0]);
  assert.equal(text(symbol.pbm({ scale: 1 })).slice(0, 9), 'P4\n29 29\n');
  assert.match(text(symbol.pdf({ mm: 14.5 })), /^%PDF-1\.4\n[^]*\/MediaBox\[0 0 41\.102362 41\.102362\][^]*%%EOF\n$/);
  assert.match(text(symbol.eps()), /^%!PS-Adobe-3\.0 EPSF-3\.0\n%%BoundingBox: 0 0 83 83\n/);
  const series = encodeSeries('A'.repeat(90), { version: 2 });
  assert.equal(text(documentOf(series)).split('/Type/Page/').length, series.length + 1);
  assert.deepEqual(symbol.printedSize({ mm: 25.4, dpi: 290 }), { scale: 10, mm: 25.4 });
  assert.deepEqual(symbol.zpl({ mm: 20 }), symbol.zpl({ scale: 5 }));
  // 29 modules of 4 dots are 14.514, 9.821 and 4.911 mm wide at 203, 300 and 600 dots an inch, and those of one dot more wider
  for (const [dpi, widest, wider] of [[203, 14.515, 18.142], [300, 9.822, 12.276], [600, 4.911, 6.138]]) {
    assert.deepEqual([widest, wider, wider + 0.001].map((mm) => symbol.printedSize({ mm, dpi }).scale), [4, 4, 5]);
  }
  // 20 mm have 159.8 dots of 203 an inch, and so 5 for each of 29 modules; 203 dots an inch are 7992 a metre
  assert.deepEqual(symbol.png({ fitMm: 20 }), symbol.png({ scale: 5, dpi: 203 }));
  assert.deepEqual(symbol.png({ fitMm: 12, dpi: 600 }), symbol.png({ scale: 9, dpi: 600 }));
  assert.deepEqual(symbol.pbm({ fitMm: 20, dpi: 203 }), symbol.pbm({ scale: 5 }));
  for (const kind of ['zpl', 'tspl', 'escpos']) assert.deepEqual(symbol[kind]({ fitMm: 20, dpi: 300 }), symbol[kind]({ scale: 8 }));
  assert.deepEqual(labels([symbol], { fitMm: 20 }), symbol.zpl({ scale: 5 }));
  for (const [kind, wrong] of [['png', { scale: 4 }], ['png', { mm: 20 }], ['zpl', { scale: 4 }], ['tspl', { mm: 20 }], ['pbm', { scale: 4 }]]) {
    assert.throws(() => symbol[kind]({ fitMm: 20, ...wrong }), { name: 'TypeError', message: /and (fitMm|mm) both say how large the symbol is/ }, kind);
  }
  assert.throws(() => symbol.pbm({ dpi: 203 }), TypeError);
  assert.throws(() => symbol.png({ fitMm: 3 }), { message: '29 modules of one dot are 3.63 mm wide, and not 3' });
  assert.throws(() => symbol.png({ fitMm: 0 }), { name: 'SettingsError', message: /^fitMm is/ });
  assert.throws(() => symbol.escpos({ mm: 3 }), { message: '29 modules of one dot are 3.63 mm wide, and not 3' });
  assert.throws(() => symbol.tspl({ mm: 20, scale: 4 }), TypeError);
  assert.throws(() => symbol.escpos({ x: 3 }), TypeError);
  for (const wrong of [{ scale: 101 }, { margin: 101 }, { dpi: 0 }, { x: -1 }, { y: 32001 }]) {
    assert.throws(() => symbol.zpl(wrong), refused('SettingsError', 5, 'SETTINGS'), JSON.stringify(wrong));
  }
  for (const wrong of [{ mm: 0 }, { mm: 0.01 }, { mm: 100000 }, { margin: 101 }]) {
    assert.throws(() => symbol.pdf(wrong), refused('SettingsError', 5, 'SETTINGS'), JSON.stringify(wrong));
  }
});

test('colours, a title and a class', () => {
  const symbol = encode('A'), plain = symbol.svg();
  assert.equal(symbol.svg({ dark: '#000', light: 'WHITE' }), plain);
  assert.equal(symbol.svg({ dark: 'Navy', light: '#FfE' }), plain.replace('#000000', '#000080').replace('#ffffff', '#ffffee'));
  assert.equal(symbol.svg({ light: null }), plain.replace(/<rect[^>]*>\n/, ''));
  assert.equal(symbol.svg({ dark: '#fff', light: '#000', inverse: true }), plain.replace('#ffffff', '#x').replace('#000000', '#ffffff').replace('#x', '#000000'));
  assert.equal(symbol.svg({ dark: 'yellow', light: null, inverse: true, inline: true }), plain.replace(/<rect[^>]*>\n/, '').replace('#000000', '#ffff00').split('\n').slice(1).join('\n'));
  const titled = plain.replace(' shape-rendering="crispEdges">', ' shape-rendering="crispEdges" class="a &quot;b&quot;" role="img">\n<title>A &amp; &lt;B&gt; \u{1f600}</title>');
  assert.equal(symbol.svg({ title: 'A & <B> \u{1f600}', className: 'a "b"' }), titled);
  assert.equal(symbol.svg({ mm: 29, title: 'A' }), symbol.svg({ mm: 29 }).replace('crispEdges">', 'crispEdges" role="img">\n<title>A</title>'));
  const below = '<text x="14.5" y="31.75" font-family="sans-serif" font-size="3.00" text-anchor="middle" fill="#000000">A &amp; $1</text>\n</svg>';
  assert.equal(symbol.svg({ caption: 'A & $1' }), plain.replace('viewBox="0 0 29 29"', 'viewBox="0 0 29 33"').replace('height="29"', 'height="33"').replace('</svg>', () => below));
  assert.match(symbol.svg({ caption: 'x'.repeat(29), mm: 29 }), / width="29\.000mm" height="33\.000mm" viewBox="0 0 29 33" [^]* font-size="1\.66"/);
  // WCAG 2.1: #949494 on white has a contrast of 3.03, and #959595 one of 2.99
  assert.ok(symbol.svg({ dark: '#949494' }));
  for (const wrong of [{ dark: '#959595' }, { light: '#123456' }, { dark: '#fff', light: '#000' }, { inverse: true }, { dark: 'yellow', light: null }, { light: null, inverse: true },
    { dark: '#12' }, { dark: 'rebeccapurple' }, { dark: 'constructor' }, { title: 'a\u0001' }, { className: '\ud800' }]) {
    assert.throws(() => symbol.svg(wrong), { name: 'SettingsError' }, JSON.stringify(wrong));
  }
  for (const wrong of [{ dark: null }, { dark: 0 }, { inverse: 1 }, { title: 3 }, { caption: 3 }, { className: null }, { class: 'a' }]) {
    assert.throws(() => symbol.svg(wrong), TypeError, JSON.stringify(wrong));
  }
});

/** Returns the chunks of a PNG file: their types, and their data as hexadecimal digits. */
function chunksOf(file) {
  const found = [], at = new DataView(file.buffer, file.byteOffset);
  for (let k = 8; k < file.length; k += 12 + at.getUint32(k)) {
    const data = file.subarray(k + 8, k + 8 + at.getUint32(k));
    found.push([String.fromCharCode(...file.subarray(k + 4, k + 8)), Buffer.from(data).toString('hex')]);
  }
  return found;
}

test('colours of PNG and PDF', () => {
  const symbol = encode('A'), plain = chunksOf(symbol.png({ mm: 20 })), navy = chunksOf(symbol.png({ mm: 20, dark: 'navy', light: '#FfE' }));
  assert.deepEqual(symbol.png({ dark: '#000', light: 'WHITE' }), symbol.png());
  assert.deepEqual(symbol.pdf({ dark: '#000', light: 'WHITE' }), symbol.pdf());
  assert.deepEqual(navy, [['IHDR', `${plain[0][1].slice(0, 18)}03000000`], plain[1], ['PLTE', '000080ffffee'], ...plain.slice(2)]);
  assert.deepEqual(chunksOf(symbol.png({ light: null })).slice(1, 3), [['PLTE', '000000ffffff'], ['tRNS', 'ff00']]);
  const text = (options) => Buffer.from(symbol.pdf(options)).toString('latin1'), dark = '0.000 0.000 0.502 rg\n';
  assert.ok(text({ dark: 'navy', light: '#ffe' }).includes(`1.000 1.000 0.933 rg 0 0 29 29 re f\n${dark}`));
  assert.ok(text({ dark: 'navy', light: null }).includes(` cm\n${dark}`) && !text({ dark: 'navy', light: null }).includes(' 29 29 re'));
  for (const wrong of [{ dark: '#959595' }, { dark: '#fff', light: '#000' }, { inverse: true }, { dark: 'rebeccapurple' }]) {
    for (const kind of ['png', 'pdf']) assert.throws(() => symbol[kind](wrong), { name: 'SettingsError' }, JSON.stringify(wrong));
  }
  for (const wrong of [{ dark: null }, { inverse: 1 }]) assert.throws(() => symbol.png(wrong), TypeError, JSON.stringify(wrong));
});

test('a drawing on a canvas', () => {
  const symbol = encode('A'), pixels = new Map(), context = {
    fillRect(x, y, width, height) {
      for (let row = y; row < y + height; row++) for (let column = x; column < x + width; column++) pixels.set(`${row} ${column}`, this.fillStyle);
    },
  };
  const canvas = { width: 0, height: 0, getContext: (kind) => (kind === '2d' ? context : null) };
  assert.equal(symbol.toCanvas(canvas, { scale: 2, margin: 4, dark: '#123', light: 'white' }), canvas);
  assert.deepEqual([canvas.width, canvas.height, pixels.size], [58, 58, 58 * 58]);
  for (let row = 0; row < 58; row++) {
    for (let column = 0; column < 58; column++) {
      const [y, x] = [row, column].map((it) => Math.floor(it / 2) - 4), isInside = Math.min(y, x) >= 0 && Math.max(y, x) < 21;
      assert.equal(pixels.get(`${row} ${column}`), isInside && symbol.dark(y, x) ? '#112233' : '#ffffff', `${row} ${column}`);
    }
  }
  pixels.clear();
  symbol.toCanvas(canvas, { light: null });
  assert.deepEqual([canvas.width, pixels.size, new Set(pixels.values())], [232, 64 * symbol.modules.reduce((sum, it) => sum + it), new Set(['#000000'])]);
  assert.throws(() => symbol.toCanvas(null), TypeError);
  assert.throws(() => symbol.toCanvas(canvas, { scale: 0 }), { name: 'SettingsError' });
  assert.throws(() => symbol.toCanvas(canvas, { dark: '#eee' }), { name: 'SettingsError' });
});

test('sheets of label paper', () => {
  const few = Array.from({ length: 7 }, (_, k) => encode(`Shelf ${k}`, { version: 2 })), text = (file) => Buffer.from(file).toString('latin1');
  const sheet = { width: 210, height: 297, columns: 3, rows: 2, left: 7, top: 15, across: 66, down: 140, first: 4 }, file = text(sheetsOf(few, sheet, { mm: 33 }));
  // 210 and 297 mm are 595.275590 and 841.889763 points
  assert.equal(file.split('/MediaBox[0 0 595.275590 841.889763]').length, 3);
  // 33 modules of 1 mm. The fifth place is 7 + 66 mm from the left and 297 - 15 - 140 - 33 from the lower edge
  assert.match(file, /stream\nq 2\.834645 0 0 2\.834645 206\.929133 308\.976377 cm\n/);
  const dark = few.reduce((sum, { modules }) => sum + modules.reduce((left, right) => left + right), 0);
  assert.equal([...file.matchAll(/\d+ \d+ (\d+) 1 re\n/g)].reduce((sum, [, run]) => sum + Number(run), 0), dark);
  // without a width the symbols are as wide as their places, which are 66 mm wide: 33 modules of 2 mm
  assert.deepEqual(sheetsOf(few, sheet), sheetsOf(few, sheet, { mm: 66 }));
  assert.deepEqual(sheetsOf(few[0], sheet), sheetsOf(few.slice(0, 1), sheet));
  for (const wrong of [{ mm: 66.1 }, { mm: 0 }, { margin: 101 }]) {
    assert.throws(() => sheetsOf(few, sheet, wrong), refused('SettingsError', 5, 'SETTINGS'), JSON.stringify(wrong));
  }
  for (const wrong of [{ width: 171.999 }, { height: 187.999 }, { across: 32.999 }, { columns: 0 }, { columns: 1.5 }, { rows: 101 }, { first: 6 }, { left: -1 },
    { width: 2000.001 }]) {
    assert.throws(() => sheetsOf(few, { ...sheet, ...wrong }, { mm: 33 }), refused('SettingsError', 5, 'SETTINGS'), JSON.stringify(wrong));
  }
  assert.throws(() => sheetsOf([], sheet), refused('SettingsError', 5, 'SETTINGS'));
  assert.throws(() => sheetsOf([few[0], encode('A')], sheet), refused('SettingsError', 5, 'SETTINGS'));
  for (const wrong of [{ width: '210' }, { left: true }, { gap: 3 }]) assert.throws(() => sheetsOf(few, { ...sheet, ...wrong }), TypeError, JSON.stringify(wrong));
});

test('label paper by its names', () => {
  // what the maker prints, in inches: left and upper margin, and from a label to the next one
  for (const [name, inches] of Object.entries({ 'Avery 5160': [0.1875, 0.5, 2.75, 1], 5163: [0.15625, 0.5, 4.1875, 2], 'avery-5167': [0.28125, 0.5, 2.0625, 0.5] })) {
    const { left, top, across, down } = paper(name);
    [left, top, across, down].forEach((it, k) => assert.ok(Math.abs(it - 25.4 * inches[k]) < 0.002, `${name} ${k}`));
  }
  const sheet = { width: 210, height: 297, columns: 3, rows: 7, left: 7.21, top: 15.15, across: 66.04, down: 38.1, first: 20, labelWidth: 63.5, labelHeight: 38.1 };
  assert.deepEqual(paper('l7160', { first: 20 }), sheet);
  assert.deepEqual(paper('HERMA 4677'), { ...sheet, first: 0 });
  for (const name of PAPERS) {
    const it = paper(name), right = it.width - it.left - (it.columns - 1) * it.across - it.labelWidth;
    const below = it.height - it.top - (it.rows - 1) * it.down - it.labelHeight;
    assert.ok(it.left >= 0 && it.top >= 0 && Math.abs(right - it.left) < 0.0021 && Math.abs(below - it.top) < 0.0021, name);
  }
  for (const wrong of ['L7', '', 'Avery', '4677 Herma']) assert.throws(() => paper(wrong), { name: 'SettingsError', message: /no label paper .*Avery L7160/ });
  assert.throws(() => paper('l7160', { first: 21 }), { name: 'SettingsError' });
  assert.throws(() => paper(7160), TypeError);
  assert.throws(() => paper('l7160', { start: 3 }), TypeError);
});

test('captions of labels', () => {
  const few = [0, 1, 2].map((k) => encode(`Shelf ${k}`, { version: 1 })), text = (file) => Buffer.from(file).toString('latin1');
  const sheet = { width: 100, height: 100, columns: 2, rows: 2, across: 50, down: 50, labelWidth: 48, labelHeight: 50 };
  const file = text(sheetsOf(few, sheet, { mm: 29, captions: ['a', '', 'é (b)'] }));
  // 29 modules of 1 mm: 48 - 29 and 50 - 29 - 3.387 mm are left over, and what the library draws stays as it is
  const middle = { width: 100, height: 100, columns: 2, rows: 2, left: 9.5, top: 8.806, across: 50, down: 50 }, drawing = text(sheetsOf(few, middle, { mm: 29 }));
  assert.ok(file.startsWith(drawing));
  // An a is 0.556 times 8 points wide, and its middle 24 mm from the left, which are 68.031 points. Its line begins 8.806 + 29 mm below the
  // upper edge and the letter stands 2.667 mm lower, which is 59.527 mm or 168.738 points from the lower edge
  const added = file.slice(drawing.length);
  assert.match(added, /\n1 0 0 1 65\.807 168\.738 Tm <61> Tj\n/);
  assert.match(added, /\n1 0 0 1 \d+\.\d{3} 27\.006 Tm <e920286229> Tj\n/);
  const start = Number(/startxref\n(\d+)\n%%EOF\n$/.exec(added)[1]), table = file.slice(start).split('\n');
  assert.equal(table[0], 'xref');
  const places = [...file.slice(start).matchAll(/(\d+) 1\n(\d{10}) 00000 n \n/g)].map(([, number, place]) => file.slice(Number(place)).startsWith(`${number} 0 obj\n`));
  assert.deepEqual(places, [true, true, true]);
  assert.equal(text(sheetsOf(few, sheet, { mm: 29, captions: [' ', '\n', ''] })), text(sheetsOf(few, { ...middle, top: 10.5 }, { mm: 29 })));
  const small = { ...sheet, labelWidth: 40, labelHeight: 30 };
  assert.deepEqual(sheetsOf(few, small), sheetsOf(few, small, { mm: 29 * 1.034 }));
  assert.throws(() => sheetsOf(few, small, { mm: 29 * 1.035 }), { name: 'SettingsError' });
  for (const [letter, told] of Object.entries({ 点: "'点' (U+70B9)", ř: "'ř' (U+0159)", '\0': "'\\x00' (U+0000)", '\x81': "'\\x81' (U+0081)" })) {
    const message = `${told}, character 3 of the caption, is not in Helvetica, the font of captions in a PDF`;
    assert.throws(() => sheetsOf(few, sheet, { captions: ['a', 'b', `ab${letter}`] }), { name: 'SettingsError', message });
  }
  assert.throws(() => sheetsOf(few, sheet, { captions: ['a', 'b'] }), { name: 'SettingsError', message: /there are 3 and 2/ });
  const [first, l7160] = [few.slice(0, 1), paper('l7160')];
  assert.throws(() => sheetsOf(first, l7160, { captions: ['a\n'.repeat(11)] }), { message: /63\.500 mm wide and 38\.100 mm high, and has no room for 29 modules and 11 lines of a caption/ });
  assert.throws(() => sheetsOf(first, l7160, { mm: 34, captions: ['a'] }), { message: /no room for a symbol 33\.988 mm wide with its margin and 1 line of a caption/ });
  for (const wrong of ['abc', ['a', 'b', null], { 0: 'a' }]) assert.throws(() => sheetsOf(few, sheet, { captions: wrong }), TypeError, JSON.stringify(wrong));
});

test('files with several labels', () => {
  const few = [encode('Shelf 12'), encode('Shelf 13', { version: 5 }), encode('Shelf 14')], text = (file) => Buffer.from(file).toString('latin1');
  const sizes = { scale: 3, margin: 2, x: 12, y: 345 }, joined = (parts) => text(Buffer.concat(parts.map((it) => Buffer.from(it))));
  assert.equal(text(labels(few, sizes)), joined(few.map((it) => it.zpl(sizes))));
  assert.equal(text(labels(few[0], { type: 'ZPL' })), text(few[0].zpl()));
  assert.equal(text(labels(few, { type: 'tspl', ...sizes })), joined(few.flatMap((it) => ['CLS\r\n', it.tspl(sizes), 'PRINT 1,1\r\n'])));
  assert.equal(text(labels(few, { type: 'escpos', mm: 20 })), joined(few.map((it) => it.escpos({ mm: 20 }))));
  assert.equal(labels([]).length, 0);
  for (const [wrong, name] of [[{ type: 'png' }, 'SettingsError'], [{ type: 'escpos', x: 3 }, 'TypeError'], [{ mm: 3 }, 'SettingsError'],
    [{ mm: 20, scale: 3 }, 'TypeError'], [{ border: 3 }, 'TypeError']]) {
    assert.throws(() => labels(few, wrong), { name }, JSON.stringify(wrong));
  }
  assert.throws(() => labels(['Shelf 12']), TypeError);
  const series = encodeSeries('A'.repeat(90), { version: 2 }), sized = new TextDecoder().decode(documentOf(series, { type: 'svg', mm: 33 }));
  assert.match(sized, new RegExp(` width="33\\.000mm" height="${33 * series.length}\\.000mm" `));
  assert.deepEqual(parseDrawing(sized).squares, series.map((it) => it.modules));
});

test('sizes in millimetres and pixels of an inch', () => {
  const symbol = encode('A'), plain = symbol.svg(); // 29 modules wide with its margin, and 232 pixels
  // a module has whole micrometres: a 29th of 20 mm is 689.7 of them
  for (const [mm, width] of [[14.5, '14.500'], [20, '20.010'], [29000, '29000.000']]) {
    assert.equal(symbol.svg({ mm }), plain.replace(' viewBox=', ` width="${width}mm" height="${width}mm" viewBox=`));
  }
  for (const mm of [0.01, 29015]) assert.throws(() => symbol.svg({ mm }), { name: 'SettingsError', message: /^a module is from 0\.001 to 1000 mm wide/ });
  const least = [[{ dpi: 0.02 }, 1], [{ mm: 41999, scale: 1, margin: 0 }, 1]], most = [{ mm: 232000 / 2147483647 }, 2147483647];
  const sizes = [[{ dpi: 300 }, 11811], [{ dpi: 203.2 }, 8000], [{ mm: 29 }, 8000], [{ mm: 14.5 }, 16000], ...least, most];
  for (const [options, wanted] of sizes) {
    const found = chunks(symbol.png({ ...options, quiet: true })), [, data] = found[1], view = new DataView(data.buffer, data.byteOffset);
    assert.deepEqual(found.map(([name]) => name), ['IHDR', 'pHYs', 'IDAT', 'IEND']);
    assert.deepEqual([view.getUint32(0), view.getUint32(4), data[8], data.length], [wanted, wanted, 1, 9]);
  }
  assert.throws(() => symbol.png({ mm: 20, dpi: 300 }), TypeError);
  for (const wrong of [0, -1, NaN, 100001]) {
    assert.throws(() => symbol.svg({ mm: wrong }), refused('SettingsError', 5, 'SETTINGS'));
    assert.throws(() => symbol.png({ dpi: wrong }), refused('SettingsError', 5, 'SETTINGS'));
  }
  assert.throws(() => symbol.png({ mm: '20' }), TypeError);
  for (const wrong of [{ dpi: 0.01 }, { dpi: 5e-324 }, { mm: 42000, scale: 1, margin: 0 }, { mm: 0.0001 }, { mm: 0.00001 }, { mm: 5e-324 }]) {
    assert.throws(() => symbol.png(wrong), refused('SettingsError', 5, 'SETTINGS'), JSON.stringify(wrong));
  }
  assert.throws(() => symbol.png({ mm: 0.0001 }), { message: '232 pixels cannot be 0.0001 mm wide in a PNG image' });
});

test('small margins and modules are warned of, each once', () => {
  const symbol = encode('A'), said = [], { warn } = console;
  console.warn = (text) => said.push(text);
  try {
    symbol.png({ mm: 5, quiet: true });
    symbol.dataURL({ type: 'svg', mm: 7.25 });
    for (let k = 0; k < 3; k++) {
      symbol.png({ scale: 2, dpi: 300, margin: 4 });
      symbol.svg({ mm: 7.2 });
    }
  } finally {
    console.warn = warn;
  }
  assert.deepEqual(said.map((it) => it.slice(0, 31)), ['qrproved: modules of 0.169 mm: ', 'qrproved: modules of 0.248 mm: ']);
});

test('many calls take no more memory than one', () => {
  const wanted = encode(bytes(2000));
  assert.throws(() => encode(''), errors.EmptyError);
  for (let k = 0; k < 3000; k++) encode(bytes(k % 50 + 1));
  assert.deepEqual(encode(bytes(2000)), wanted);
  assert.ok(memory.buffer.byteLength <= 16 << 20, `${memory.buffer.byteLength} bytes`);
});

test('load, before the first call and after it', async () => {
  await load();
  assert.equal(read(encode('loaded')).text(), 'loaded');
  const first = `const { load, encode, read } = await import(${JSON.stringify(at)}); await load(); await load();
    delete WebAssembly.Instance; console.log(read(encode('first')).text());`;
  assert.equal(execFileSync(process.execPath, ['--input-type=module', '-e', first], { encoding: 'utf8' }), 'first\n');
});

test('drawings are parsed', () => {
  const series = encodeSeries('Shelf 12 '.repeat(20), { version: 3 });
  for (const symbols of [[encode('Shelf 12')], series]) {
    for (const type of ['ASCII', 'ASCIIi', 'UTF8', 'SVG']) {
      for (const margin of [0, 1, 4, 100]) {
        const found = parseDrawing(draw(symbols, { type, margin }));
        assert.deepEqual([found.type, found.margin], [type, margin]);
        assert.deepEqual(found.squares, symbols.map((it) => it.modules));
      }
    }
  }
  assert.equal(read(parseDrawing(encode('A').text()).squares[0]).text(), 'A');
});

test('pasted drawings are parsed', () => {
  const symbol = encode('Shelf 12');
  for (const type of ['ASCII', 'ASCIIi', 'UTF8']) {
    for (const margin of [0, 3, 4]) {
      const text = draw([symbol, symbol], { type, margin }), lines = text.split('\n');
      const pasted = {
        'other spaces': `\ufeff${text.replaceAll(' ', '\u00a0')}`,
        'other line ends': text.replaceAll('\n', '\r\n'),
        'no spaces at line ends': lines.map((line) => line.trimEnd()).join('\n'),
        'an indentation': lines.map((line) => `   ${line}`).join('\n'),
        'empty lines': `\n\n${lines.slice(0, lines.length / 2).join('\n')}\n\n\n${lines.slice(lines.length / 2).join('\n')}`,
      };
      for (const [name, given] of Object.entries(pasted)) {
        const found = parseDrawing(given);
        assert.deepEqual([found.type, found.squares], [type, [symbol.modules, symbol.modules]], `${name}, ${type}, margin ${margin}`);
      }
    }
  }
  for (const margin of [1, 3, 7]) {
    const light = Array(Math.floor(margin / 2)).fill('\u2588'.repeat(symbol.side + 2 * margin)), side = '\u2588'.repeat(margin);
    const lines = symbol.text({ margin: 0 }).split('\n').slice(0, -1).map((line) => side + line + side);
    assert.deepEqual(parseDrawing([...light, ...lines, ...light].join('\n')).squares, [symbol.modules], `half blocks of another program, ${margin}`);
  }
  assert.deepEqual(parseDrawing(` ${symbol.svg({ mm: 30 }).replaceAll('\n', '\r\n')}`).squares, [symbol.modules]);
});

test('a light row is no empty line between symbols', () => {
  const all = Array.from({ length: 200 }, (_, number) => encode(`${number}`));
  const symbols = all.filter((it) => !it.modules.subarray(7 * 21, 8 * 21).includes(1)).slice(0, 2);
  for (const margin of [0, 1, 4]) {
    for (const [gap, ending] of [['', '\n'], ['\n', '\n'], ['\r\n\r\n', '\r\n'], ['', '\n\n'], ['', '\r\n\r\n']]) {
      const linesOf = (it) => it.text({ margin, type: 'ASCII' }).split('\n').slice(0, -1);
      const text = symbols.map((it) => linesOf(it).map((line) => line.trimEnd() + ending).join('')).join(gap);
      for (const pasted of [text, text.split('\n').map((line) => `\t${line}`).join('\n')]) {
        const found = parseDrawing(pasted);
        assert.deepEqual([found.type, found.squares], ['ASCII', symbols.map((it) => it.modules)], JSON.stringify([margin, gap, ending]));
      }
    }
  }
});

test('texts of many lines and of long lines are no drawings', () => {
  const long = `x${' '.repeat(300000)}y`;
  for (const given of ['a\n'.repeat(300000), `${'x'.repeat(1e6)}\n${'y\n'.repeat(1e5)}`, long, 'A\nB', '\u2588\n\u2588']) {
    assert.throws(() => parseDrawing(given), refused('NoDrawingError', 11, 'NO_DRAWING'));
  }
});

test('other texts are no drawings', () => {
  const text = encode('Shelf 12').text({ type: 'ASCII' });
  for (const given of ['', '\n', 'hello', text.replace('##', '# '), text.replace('##', '??'), '<svg></svg>']) {
    assert.throws(() => parseDrawing(given), refused('NoDrawingError', 11, 'NO_DRAWING'));
  }
  assert.throws(() => parseDrawing(new Uint8Array(3)), TypeError);
});

// Symbols of zint and segno, each with the words that made it.
const LABELS = readFileSync(new URL('../../tests/labels.jsonl', import.meta.url), 'utf8').trim().split('\n').map((line) => JSON.parse(line));

const modulesOf = (rows, side = 21) => Uint8Array.from(BigInt(`0x${rows}`).toString(2).padStart(side * side, '0'), Number);

/** Returns the content of the label that some words made. */
function labelled(by) {
  const { rows, side } = LABELS.find((it) => it.by === by);
  return read(modulesOf(rows, side));
}

/** Returns a content with other data, for what no encoder at hand writes. */
const contentOf = (data, others) => Object.assign(read(encode('A')), { data: Uint8Array.from(data), ...others });
const named = (name, message) => (error) => error instanceof errors[name] && error instanceof Error && !(error instanceof errors.QRError)
  && error.name === name && message.test(error.message);

test('texts by their ECIs', () => {
  const cases = [['zint --eci=3 -d Ünïcödé --secure=1', 3, 'Ünïcödé'], ['zint --eci=9 -d Ελληνικά --secure=2', 9, 'Ελληνικά'], ['segno 価格', 26, '価格']];
  for (const [by, number, text] of cases) {
    const content = labelled(by);
    assert.deepEqual([content.ecis, content.text(), content.gs1, content.application], [[{ begin: 0, number }], text, false, null]);
  }
  const two = labelled('zint --eci=20 -d 0123456789 --secure=3 --seg1=899,ABC-123 %45');
  assert.deepEqual(two.ecis, [{ begin: 0, number: 20 }, { begin: 10, number: 899 }]);
  assert.throws(() => two.text(), named('EciError', /^ECI 899 means bytes/));
  const words = LABELS.map(({ by }) => /^zint --eci=[0-9]+ -d (.*) --secure=[0-9]( --vers=[0-9]+)?$/.exec(by)).filter(Boolean);
  assert.ok(words.length > 50);
  for (const [by, text] of words) assert.equal(labelled(by).text(), text, by);
});

test('character sets of ECIs', () => {
  const cases = [[0, [0x81, 0x84, 0xe1], 'üäß'], [1, [0xdc, 0x9d], 'Ü\x9d'], [2, [0x9b, 0xfe], '¢■'], [4, [0xb3, 0xf3, 0x64, 0xbc], 'łódź'],
    [7, [0xbc, 0xd8, 0xe0], 'Мир'], [11, [0xdd, 0xfd, 0xf0], 'İığ'], [13, [0xa1, 0xd2], 'กา'], [17, [0xa4], '€'],
    [20, [0x93, 0x5f, 0x83, 0x65, 0xb1], '点テｱ'], [22, [0xcf, 0xf0], 'Пр'], [23, [0x80], '€'], [25, [0x70, 0xb9, 0, 0x41], '点A'],
    [27, [0x41, 0x7e], 'A~'], [28, [0xa4, 0xa4], '中'], [29, [0xd6, 0xd0], '中'], [30, [0xb0, 0xa1], '가']];
  for (const [number, data, text] of cases) assert.equal(contentOf(data, { ecis: [{ begin: 0, number }] }).text(), text, `${number}`);
  assert.equal(contentOf([0xc3, 0xa9, 0xe9, 0xc3, 0xa9], { ecis: [{ begin: 2, number: 3 }, { begin: 3, number: 26 }] }).text(), 'ééé');
  assert.equal(contentOf([0x41], { ecis: [{ begin: 0, number: 26 }, { begin: 1, number: 811799 }] }).text(), 'A'); // of no byte
  for (const [number, data] of [[26, [0xc3]], [27, [0x80]], [20, [0x93]]]) {
    assert.throws(() => contentOf(data, { ecis: [{ begin: 0, number }] }).text(), TypeError);
  }
  for (const number of [14, 127, 128, 899, 16384, 999999]) {
    assert.throws(() => contentOf([65], { ecis: [{ begin: 0, number }] }).text(), named('EciError', new RegExp(`ECI ${number} `)));
  }
});

test('each byte of each character set', () => {
  // SHA-256 of the character of each byte in each set, with U+FFFD for none; python/tests/test_labels.py has the same
  const wanted = '2e4d953e822aa78687c03e4c764715542b1cae556d237905f22a7de38e10f7b7';
  const numbers = Array.from({ length: 33 }, (_, number) => number).filter((it) => ![14, 19, 31].includes(it));
  const character = (number, byte) => {
    try {
      return contentOf([byte], { ecis: [{ begin: 0, number }] }).text();
    } catch (error) {
      if (!(error instanceof TypeError)) throw error;
      return '\ufffd';
    }
  };
  const said = numbers.map((number) => Array.from({ length: 256 }, (_, byte) => character(number, byte)).join('')).join('');
  assert.equal(createHash('sha256').update(said).digest('hex'), wanted);
});

test('characters of several bytes', () => {
  const text = (number, ...data) => contentOf(data, { ecis: [{ begin: 0, number }] }).text();
  for (const number of [20, 28, 29, 30, 32]) {
    assert.equal(text(number, 0x7f, 0x41), '\x7fA', `${number}`);
    assert.equal(text(number, 0x7f, 0x7f, 0x00, 0x41, 0x7f), '\x7f\x7f\0A\x7f', `${number}`);
  }
  assert.equal(text(20, 0x1c, 0x93, 0x5f, 0x41, 0xb1, 0x1a, 0x7f), '\x1c点Aｱ\x1a\x7f');
  assert.equal(text(29, 0x41, 0xd6, 0xd0, 0x81, 0x30, 0x81, 0x30, 0x31), 'A中\x801');
  // a syllable beyond KS X 1001: some engines have it, the others know it for none
  try {
    assert.equal(text(30, 0x81, 0x41), '갂');
  } catch (error) {
    assert.ok(error instanceof TypeError);
  }
  for (const [number, ...data] of [[20, 0x93, 0x7f], [20, 0xb1, 0xfd], [28, 0xa4], [29, 0x81, 0x30, 0x81], [30, 0xb0, 0x40]]) {
    assert.throws(() => text(number, ...data), TypeError);
  }
});

test('fields of GS1 data', () => {
  const content = labelled('zint --gs1 -d [10]9NJY[8008]37090120 --secure=2');
  assert.deepEqual([new TextDecoder().decode(content.data), content.gs1, content.ecis, content.application], ['109NJY\x1d800837090120', true, [], null]);
  assert.deepEqual(content.fields(), [['10', '9NJY'], ['8008', '37090120']]);
  const words = LABELS.map(({ by }) => /^zint --gs1 (?:--structapp=[^ ]+ )?-d ([^ ]+) --secure=[0-9]( --vers=[0-9]+)?$/.exec(by)).filter(Boolean);
  assert.equal(words.length, LABELS.filter((it) => it.fnc1 === 'gs1').length);
  for (const [by, data] of words) assert.deepEqual(labelled(by).fields(), Array.from(data.matchAll(/\[([0-9]+)\]([^[]+)/g), (it) => it.slice(1)), by);
});

const gs1 = (data) => contentOf(new TextEncoder().encode(data), { gs1: true });

test('each application identifier', () => {
  const cases = [
    ['010401234567890110ABC123\x1d17261231', [['01', '04012345678901'], ['10', 'ABC123'], ['17', '261231']]],
    ['00340123450000000000', [['00', '340123450000000000']]], ['31030012502001', [['3103', '001250'], ['20', '01']]],
    ['3922199\x1d3712', [['3922', '199'], ['37', '12']]], ['3912978199', [['3912', '978199']]],
    ['410401234500000921a%_', [['410', '4012345000009'], ['21', 'a%_']]], ['422276\x1d90x', [['422', '276'], ['90', 'x']]],
    ['800304012345678901A1', [['8003', '04012345678901A1']]], ['800304012345678901', [['8003', '04012345678901']]],
    ['8006040123456789010102', [['8006', '040123456789010102']]], ['80082612312359', [['8008', '2612312359']]],
    ['8006376549746015474545', [['8006', '376549746015474545']]],
    ['8011921919\x1d80110\x1d8011120', [['8011', '921919'], ['8011', '0'], ['8011', '120']]],
    ['80131987654Ad4X4bL5ttr2310c2K', [['8013', '1987654Ad4X4bL5ttr2310c2K']]], // the example of the General Specifications
    ['17261200\x1d8020A1\x1d', [['17', '261200'], ['8020', 'A1']]], [`99${'z'.repeat(90)}`, [['99', 'z'.repeat(90)]]],
    ['423056\x1d425056276', [['423', '056'], ['425', '056276']]],
    ['172802291100022915270200', [['17', '280229'], ['11', '000229'], ['15', '270200']]],
  ];
  for (const [data, fields] of cases) assert.deepEqual(gs1(data).fields(), fields, data);
});

test('wrong fields are named', () => {
  const cases = [
    ['0104012345678902', /^\(01\) its check digit is 2, and should be 1$/], ['010401234567890', /^\(01\) has 14 characters, and not 13$/],
    [`00${'3'.repeat(17)}\x1d`, /^\(00\) has 18 characters, and not 17$/], [`10${'A'.repeat(21)}`, /^\(10\) has 1 to 20 characters, and not 21$/],
    ['10\x1d17261231', /^\(10\) has 1 to 20 characters, and not 0$/], ['17261331', /^\(17\) 261331 is no date$/],
    ['17260230', /^\(17\) 260230 is no date$/], ['3712A', /^\(37\) 'A' is not a digit$/], ['10A B', /^\(10\) ' ' is not a character of GS1's set 82$/],
    ['8010a', /^\(8010\) 'a' is not a character of GS1's set 39$/], ['800826123124', /^\(8008\) 24 is no hour$/],
    ['800826123123599', /^\(8008\) 599 is no time$/], ['3712\x1d\x1d2001', /begins '\\x1d200'$/], ['0512', /begins '0512'$/],
    ['3106000000', /begins '3106'$/], ['', /no field/], ['37\'', /^\(37\) "'" is not a digit$/], ['37\\', /^\(37\) '\\\\' is not a digit$/],
    ['17270229', /^\(17\) 270229 is no date$/],
    ['800826120012', /^\(8008\) 261200 is no date$/], ['4230560', /^\(423\) 0560 is not of codes of three digits$/],
    ['8006376549746015475845', /^\(8006\) there is no piece 58 of 45$/], ['8006376549746015470001', /^\(8006\) there is no piece 00 of 01$/],
    ['8006376549746015470100', /^\(8006\) there is no piece 01 of 00$/], ['8006376549746015465845', /^\(8006\) its check digit is 6, and should be 7$/],
    ['80110921919', /^\(8011\) 0921919 begins with 0$/], ['801100', /^\(8011\) 00 begins with 0$/],
    ['80131987654Ad4X4bL5ttr2310c2L', /^\(8013\) its check characters are 2L, and should be 2K$/],
    ['8013A987654Ad4X4bL5ttr2310c2K', /^\(8013\) its check characters are 2K, and should be 9K$/],
    ['80131234', /^\(8013\) its check characters are 34, and should be 4A$/], ['80132', /^\(8013\) has 2 to 25 characters, and not 1$/],
    ['42305', /^\(423\) has 3 to 15 characters, and not 2$/], ['800314012345678908', /^\(8003\) its first digit is 1, and should be 0$/],
  ];
  for (const [data, why] of cases) assert.throws(() => gs1(data).fields(), named('Gs1Error', why), data);
  assert.throws(() => read(encode('3712')).fields(), named('Gs1Error', /does not say/));
});

/** Returns the bytes of a symbol, the numbers of its ECI headers, and whether it says that it is GS1 data. */
const said = (symbol) => {
  const { data, ecis, gs1: isGs1 } = read(symbol);
  return [[...data], ecis, isGs1];
};
const utf8 = (text) => [...new TextEncoder().encode(text)];

test('a string that is not ASCII says that it is UTF-8', () => {
  for (const text of ['Grüße aus Köln', '€', 'テ🙂', 'a\x80']) {
    assert.deepEqual(said(encode(text)), [utf8(text), [{ begin: 0, number: 26 }], false]);
    assert.equal(read(encode(text)).text(), text);
    assert.deepEqual(said(encode(text, { eci: false })), [utf8(text), [], false]);
    assert.deepEqual(said(encode(Uint8Array.from(utf8(text)))), [utf8(text), [], false]);
    assert.deepEqual(said(encode(Uint8Array.from(utf8(text)), { eci: 26 })), [utf8(text), [{ begin: 0, number: 26 }], false]);
  }
  assert.deepEqual(said(encode('Shelf 12\x7f')), [utf8('Shelf 12\x7f'), [], false]);
  assert.deepEqual(said(encode('Shelf 12', { eci: 26 })), [utf8('Shelf 12'), [{ begin: 0, number: 26 }], false]);
  const text = 'Grüße aus Köln, '.repeat(12), symbols = encodeSeries(text, { version: 3 });
  assert.ok(symbols.length > 2);
  for (const symbol of symbols) assert.deepEqual(read(symbol).ecis, [{ begin: 0, number: 26 }]);
  assert.deepEqual(symbols.flatMap((it) => [...read(it).data]), utf8(text));
  for (const symbol of encodeSeries(text, { version: 3, eci: false })) assert.deepEqual(read(symbol).ecis, []);
});

test('a string is encoded in the set of its ECI', () => {
  const cases = [[0, [0x81, 0x84, 0xe1], 'üäß'], [3, [0xdc, 0x6e], 'Ün'], [4, [0xb3, 0xf3, 0x64, 0xbc], 'łódź'], [7, [0xbc, 0xd8, 0xe0], 'Мир'],
    [11, [0xdd, 0xfd, 0xf0], 'İığ'], [13, [0xa1, 0xd2], 'กา'], [17, [0xa4], '€'], [18, [0xde, 0xfe], 'Țț'],
    [20, [0x93, 0x5f, 0x83, 0x65, 0xb1], '点テｱ'], [22, [0xcf, 0xf0], 'Пр'], [23, [0x80], '€'], [25, [0x70, 0xb9, 0, 0x41], '点A'],
    [27, [0x41, 0x7e], 'A~']];
  for (const [number, data, text] of cases) {
    assert.deepEqual(said(encode(text, { eci: number })), [data, [{ begin: 0, number }], false], `${number}`);
    assert.equal(read(encode(text, { eci: number })).text(), text, `${number}`);
  }
  for (const number of [127, 128, 899, 16383, 16384, 999999]) {
    assert.deepEqual(said(encode(Uint8Array.of(65, 255), { eci: number })), [[65, 255], [{ begin: 0, number }], false]);
    assert.throws(() => encode('A', { eci: number }), named('EciError', new RegExp(`ECI ${number} `)));
  }
  assert.throws(() => encode('中', { eci: 29 }), named('EciError', /ECI 29 and does not write them$/));
  for (const [character, shown] of [['\u202b', "'\\u202b'"], ['\u3000', "'\\u3000'"], ['\ufeff', "'\\ufeff'"], ['\u00a0', "'\\xa0'"]]) {
    assert.throws(() => encode(character, { eci: 27 }), (error) => error.message.startsWith(`${shown} (U+`));
  }
  assert.throws(() => encode('12.5€', { eci: 3 }), named('EciError', /^'€' \(U\+20AC\), character 5 of the text, is not in the characters of ECI 3$/));
});

test('kanji', () => {
  const cases = [['点茗', [0x93, 0x5f, 0xe4, 0xaa]], ['A点ｱ1', [0x41, 0x93, 0x5f, 0xb1, 0x31]], ['Shelf 12', utf8('Shelf 12')],
    ['〜～−', [0x81, 0x60, 0x81, 0x60, 0x81, 0x7c]]];
  for (const [text, data] of cases) {
    assert.deepEqual(said(encode(text, { rule: 'with_kanji' })), [data, [], false]);
    assert.deepEqual(said(encode(text, { rule: 'with_kanji', eci: false })), [data, [], false]);
    assert.deepEqual(said(encode(text, { rule: 'with_kanji', eci: 20 })), [data, [{ begin: 0, number: 20 }], false]);
  }
  assert.deepEqual([10, 11].map((count) => encode('点'.repeat(count), { rule: 'with_kanji' }).version), [1, 2]); // Table 7
  for (const text of ['点茗', '点', 'ｱA1点茗点茗点茗', 'テ点－']) {
    const symbol = encode(text, { rule: 'with_kanji' });
    for (const content of [read(symbol), mend(symbol).content]) assert.deepEqual([content.text(), content.kanji, content.ecis], [text, true, []]);
    const marked = read(encode(text, { rule: 'with_kanji', eci: 20 }));
    assert.deepEqual([marked.text(), marked.kanji], [text, true]);
    assert.deepEqual([read(encode(text)).text(), read(encode(text)).kanji], [text, false]);
  }
  const series = encodeSeries('点茗'.repeat(30), { version: 1, rule: 'with_kanji' }).map(read);
  assert.ok(series.length > 1 && series.every((it) => it.kanji));
  assert.equal(series.map((it) => it.text()).join(''), '点茗'.repeat(30));
  // Kanji mode in GS1 data, or after an ECI header, says nothing of the other bytes.
  const inGs1 = read(encode({ gs1: Uint8Array.of(0x31, 0x30, 0x93, 0x5f, 0xe4, 0xaa, 0x93, 0x5f) }, { rule: 'with_kanji' }));
  assert.deepEqual([inGs1.kanji, inGs1.gs1], [true, true]);
  assert.throws(() => inGs1.text(), TypeError);
  const kanji = (...data) => contentOf(data, { kanji: true });
  assert.equal(kanji(0x7f, 0x41, 0xb1, 0x93, 0x5f).text(), '\x7fAｱ点');
  assert.throws(() => kanji(0x93, 0x5f, 0x93).text(), TypeError);
  assert.equal(contentOf([0xc3, 0xa9, 0x93, 0x5f], { kanji: true, ecis: [{ begin: 2, number: 20 }] }).text(), 'é点');
  const wrong = [['点✓✓', /^'✓' \(U\+2713\), character 2 of the text, is not in Shift JIS$/], ['①', /Shift JIS$/], ['¥', /Shift JIS$/], ['Grüße', /character 3/]];
  for (const [text, why] of wrong) assert.throws(() => encode(text, { rule: 'with_kanji' }), named('EciError', why));
});

test('each character of Shift JIS', () => {
  // SHA-256 of the bytes that Python's codec 'shift_jis' has for the characters of JIS X 0208 in the order of Unicode, without the seven
  // that systems have by two code points
  const wanted = 'df7eccd481bff6acb6e07c10e9ef475ccb58a58485b2186890715c72d3ddae74', others = '〜～‖∥−－¢￠£￡¬￢―—', bytes = [];
  const { stackTraceLimit } = Error;
  Error.stackTraceLimit = 0; // of 50,000 errors
  let count = 0;
  for (let code = 0x80; code < 0x10000; code++) {
    const character = String.fromCharCode(code);
    if ((code >= 0xd800 && code < 0xe000) || others.includes(character)) continue;
    try {
      bytes.push(...read(encode(character, { rule: 'with_kanji' })).data);
      count += 1;
    } catch (error) {
      if (!(error instanceof errors.EciError)) throw error;
    }
  }
  Error.stackTraceLimit = stackTraceLimit;
  assert.equal(count, 63 + 6879 - 7);
  assert.equal(createHash('sha256').update(Uint8Array.from(bytes)).digest('hex'), wanted);
});

test('GS1 data are written and read', () => {
  const cases = [
    [[['01', '04012345678901'], ['10', 'ABC123'], ['17', '261231']], '010401234567890110ABC123\x1d17261231'],
    [[['00', '340123450000000000']], '00340123450000000000'], [[['3103', '001250'], ['20', '01']], '31030012502001'],
    [[['3922', '199'], ['37', '12']], '3922199\x1d3712'], [[['410', '4012345000009'], ['21', 'a%_']], '410401234500000921a%_'],
    [[['402', '12345678901234560'], ['10', 'A']], '40212345678901234560\x1d10A'], [[['10', 'A(12)B%'], ['21', '%%']], '10A(12)B%\x1d21%%'],
  ];
  for (const [fields, data] of cases) {
    const text = fields.map(([name, value]) => `[${name}]${value}`).join(''), symbol = encode({ gs1: text });
    assert.deepEqual(said(symbol), [utf8(data), [], true], text);
    assert.deepEqual(read(symbol).fields(), fields, text);
    if (!data.includes('(')) assert.deepEqual(encode({ gs1: text.replaceAll('[', '(').replaceAll(']', ')') }), symbol);
    assert.deepEqual(encode({ gs1: Uint8Array.from(utf8(data)) }), symbol);
  }
  const symbols = encodeSeries({ gs1: `(90)${'Ab%'.repeat(10)}(91)${'Ab%'.repeat(30)}(92)${'Ab%'.repeat(30)}` }, { version: 3 });
  assert.ok(symbols.length > 2 && symbols.every((it) => read(it).gs1));
});

test('a percent sign of GS1 data is written in byte mode', () => {
  for (const gs1 of ['(10)AB%12', Uint8Array.from(utf8('10AB%12')), '[10]%[21]%%']) {
    const symbol = encode({ gs1 }), other = encode({ gs1 }, { rule: 'auto' });
    assert.deepEqual(symbol, encode({ gs1 }, { rule: 'bytes_only' }));
    assert.notDeepEqual(symbol, other);
    assert.deepEqual(said(symbol), said(other));
  }
  for (const input of [{ gs1: '(10)AB12' }, '10AB%12', { gs1: '(10)AB(21)1' }]) assert.deepEqual(encode(input), encode(input, { rule: 'auto' }));
  const input = { gs1: `(90)${'A%'.repeat(15)}` }, series = encodeSeries(input, { version: 1 });
  assert.deepEqual(series, encodeSeries(input, { version: 1, rule: 'bytes_only' }));
  assert.notDeepEqual(series, encodeSeries(input, { version: 1, rule: 'auto' }));
});

test('GS1 data that are wrong', () => {
  const wrong = [
    ['(01)04012345678902', /^\(01\) its check digit is 2, and should be 1$/], ['[01]04012345678901[10]', /^\(10\) has 1 to 20 characters, and not 0$/],
    ['(10)AB(17)261331', /^\(17\) 261331 is no date$/], ['(10)Grüße', /^\(10\) '\\xfc' is not a character of GS1's set 82$/],
    ['(10)✓', /^\(10\) '\\u2713' is not/], ['(10)🙂', /^\(10\) '\\U0001f642' is not/], ['(10)A\x1dB', /^\(10\) '\\x1d' is not/],
    ['(37)🙂🙂🙂🙂🙂🙂🙂', /^\(37\) '\\U0001f642' is not a digit$/], ['(37)🙂🙂🙂🙂🙂🙂🙂🙂🙂', /^\(37\) has 1 to 8 characters, and not 9$/],
    ['(01)04012345678901(05)1', /^\(05\) is no application identifier that is known$/], ['(310)001250', /^\(310\) is no application identifier/],
    ['(10)A(12)B', /^\(12\) has 6 characters, and not 1$/], ['0104012345678901', /^GS1 data begin with an .*, and not with '0104'$/], ['', /^GS1 data begin/],
  ];
  for (const [text, why] of wrong) assert.throws(() => encode({ gs1: text }), named('Gs1Error', why), text);
  for (const data of ['A\x1d\x1dB', 'A\x1d%']) {
    for (const call of [encode, encodeSeries]) {
      assert.throws(() => call({ gs1: Uint8Array.from(utf8(data)) }, { version: 1 }), refused('FieldsError', 12, 'FIELDS'));
    }
  }
  for (const other of [{ gs1: 1 }, { gs1: undefined }, { gs1: ['(20)01'] }, { others: '(20)01' }]) assert.throws(() => encode(other), TypeError);
  assert.throws(() => encode({ gs1: '(20)01' }, { eci: 26 }), TypeError);
});

test('the highest level that fits the version', () => {
  const fits = [17, 14, 11, 7]; // bytes, in version 1 (Table 7)
  for (let count = 1; count <= 17; count++) {
    const highest = 'LMQH'[fits.findLastIndex((most) => count <= most)];
    for (const [k, level] of [...'LMQH'].entries()) {
      const input = new Uint8Array(count).fill(97), symbol = encode(input, { level }), plain = encode(input, { level, boost: false });
      assert.deepEqual([plain.level, symbol.version], [level, plain.version]);
      if (count <= fits[k]) assert.deepEqual([symbol.level, mend(symbol).level], [highest, highest]);
    }
  }
  assert.deepEqual(encodeSeries('A', { version: 40 }).map((it) => [it.level, mend(it).level]), [['L', 'L']]);
  assert.throws(() => encodeSeries('A', { version: 40, boost: true }), TypeError);
});

test('an application indicator, and JSON', () => {
  // FNC1 in second position, and what is in byte and alphanumeric mode after it: codewords that were written by hand
  const rows = [
    ['1fc97f82ca0dd2576eb2bb7495d82ca0ff55fc01201f79aa0d892a334b3f3251bcd2400a94ff449209a4d75d26ba896dd44b20a255fd921', 'AA12', '37'],
    ['1fc97f82ca0dd2576eb2bb7495d82ca0ff55fc01201f79aac9497b79493852482452c008927f64ba092557592eba8965d649e0a24dfd921', 'A\x1dB', 'a'],
  ];
  for (const [row, text, application] of rows) {
    const { content } = mend(modulesOf(row));
    assert.deepEqual([content.text(), content.application, content.gs1, content.ecis], [text, application, false, []]);
  }
  const wanted = { data: [65, 65, 49, 50], version: 1, header: null, ecis: [], gs1: false, application: '37', kanji: false };
  assert.deepEqual(JSON.parse(JSON.stringify(read(modulesOf(rows[0][0])))), wanted);
  const label = labelled('zint --binary --eci=128 -d abc --secure=3');
  assert.deepEqual(JSON.parse(JSON.stringify(label)), { ...wanted, data: [97, 98, 99], ecis: [{ begin: 0, number: 128 }], application: null });
});

// The versions and levels were worked out by hand, as tests/lib/library_rows.py says.
test('a logo decides on the version and the level', () => {
  const letters = 'a'.repeat(17);
  for (const [input, logo, share, version, level] of [['A', 3, 0.5, 1, 'H'], [letters, 2, 0.5, 1, 'L'], [letters, 3, 0.5, 2, 'Q'], [letters, 2, 0.49, 2, 'Q'],
    ['A', 4, undefined, 2, 'H'], ['A', 5, 0, 7, 'H']]) {
    const symbol = encode(input, { logo, share });
    assert.deepEqual([symbol.version, symbol.level, symbol.logo], [version, level, logo]);
  }
  assert.equal(encode(letters, { level: 'H', logo: 2 }).version, 3);
  assert.deepEqual(encode('A', { logo: 2 }).logoBox, { row: 9, column: 9, side: 2 });
  assert.deepEqual([encode('A').logo, encode('A').logoBox, encode('A', { logo: 3 }).logoSpent, encode('A').logoSpent], [null, null, 0.25, 0]);
});

test('a logo that is a fraction of the side', () => {
  for (const logo of [0.05, 0.2, 0.3]) {
    const symbol = encode('Shelf 12', { logo });
    assert.equal(symbol.logo, Math.max(1, Math.round(logo * symbol.side)));
    for (let version = 1; version < symbol.version; version++) {
      assert.ok(encode('Shelf 12', { version, logo: Math.max(1, Math.round(logo * (17 + 4 * version))) }).version > version);
    }
  }
});

test('a logo that is too large says what would fit', () => {
  const refused = (options) => {
    try {
      return encode('Shelf 12', options);
    } catch (error) {
      return error;
    }
  };
  const error = refused({ logo: 177 }), { largest } = error;
  assert.ok(error instanceof errors.LogoError && error instanceof errors.QRError);
  assert.deepEqual([error.status, error.code], [13, 'LOGO']);
  assert.equal(error.message, `no symbol of the input may have a logo of 177 by 177 modules: one may have a logo of at most ${largest} by ${largest} modules`);
  assert.equal(refused({ logo: largest }).logo, largest);
  assert.equal(refused({ logo: largest + 1 }).largest, largest);
  assert.match(refused({ logo: 0.6 }).message, /of 60 % of the side/);
  for (const options of [{ logo: 178 }, { logo: -1 }, { logo: 1.5 }, { logo: 7, share: 0.76 }, { logo: 7, share: -0.1 }]) {
    assert.equal(refused(options).name, 'SettingsError');
  }
  for (const options of [{ logo: '7' }, { logo: true }, { share: 0.5 }, { logo: 7, share: '0.5' }]) assert.ok(refused(options) instanceof TypeError);
  assert.throws(() => encode('', { logo: 3 }), { name: 'EmptyError' });
  assert.throws(() => encode('a'.repeat(2954), { logo: 3 }), { name: 'TooLongError', message: /version 40-L holds 2,953 bytes/ });
});

test('whatever a logo shows the symbol is read, and its place is light', () => {
  const symbol = encode('Shelf 12', { logo: 8 }), { side, logoBox: { row, column } } = symbol;
  const isUnder = (k) => Math.floor(k / side) >= row && Math.floor(k / side) < row + 8 && k % side >= column && k % side < column + 8;
  const plain = encode('Shelf 12', { version: symbol.version, level: symbol.level, boost: false });
  assert.deepEqual([symbol.modules, symbol.mask], [plain.modules, plain.mask]);
  const inverted = mend(symbol.modules.map((module, k) => (isUnder(k) ? 1 - module : module)));
  assert.deepEqual([inverted.content.text(), inverted.spent <= 0.5, inverted.spent], ['Shelf 12', true, symbol.logoSpent]);
  const lit = symbol.modules.map((module, k) => (isUnder(k) ? 0 : module));
  assert.notDeepEqual(lit, symbol.modules);
  for (const drawing of [symbol.svg(), symbol.svg({ mm: 30 }), symbol.text(), draw([symbol, symbol])]) assert.deepEqual(parseDrawing(drawing).squares[0], lit);
  assert.deepEqual(Buffer.from(symbol.pbm({ scale: 1, margin: 0, quiet: true })).subarray(-side * Math.ceil(side / 8)),
    Buffer.from(Array.from({ length: side }, (_, y) => Array.from({ length: Math.ceil(side / 8) }, (_, x) => (
      Array.from({ length: 8 }, (_, bit) => (8 * x + bit < side ? lit[y * side + 8 * x + bit] : 0)).reduce((byte, module) => 2 * byte + module, 0)))).flat()));
});

test('the picture of a logo', () => {
  const symbol = encode('Shelf 12', { logo: 7 }), vector = new TextEncoder().encode('<svg xmlns="http://www.w3.org/2000/svg" viewBox="0 0 1 1"/>');
  for (const [picture, media] of [[Uint8Array.from([137, 80, 78, 71, 13, 10, 26, 10, 0, 255]), 'png'], [vector, 'svg+xml']]) {
    for (const options of [{}, { mm: 30 }, { inline: true }, { margin: 6, caption: 'Shelf', dark: 'navy' }]) {
      const document = symbol.svg({ logo: picture, ...options }), first = (options.margin ?? 4) + symbol.logoBox.row + 1;
      const [, at, source] = /<image (x="\d+" y="\d+" width="\d+" height="\d+") [^>]*xlink:href="([^"]*)"\/>\n<\/svg>\n$/.exec(document);
      assert.equal(at, `x="${first}" y="${first}" width="5" height="5"`);
      assert.equal(source, `data:image/${media};base64,${Buffer.from(picture).toString('base64')}`);
    }
  }
  assert.throws(() => symbol.svg({ logo: new Uint8Array(9) }), { name: 'SettingsError' });
  assert.throws(() => symbol.svg({ logo: 'logo.png' }), TypeError);
  assert.throws(() => encode('A').svg({ logo: vector }), TypeError);
  const drawn = [], canvas = {
    getContext: () => ({ fillRect: () => {}, drawImage: (...words) => drawn.push(words) }),
  };
  const image = { width: 200, height: 100 };
  symbol.toCanvas(canvas, { scale: 10, logo: image });
  // 5 modules of 10 pixels, and half as high as wide
  const at = 10 * (4 + symbol.logoBox.row + 1);
  assert.deepEqual(drawn, [[image, at, at + 12.5, 50, 25]]);
  assert.throws(() => symbol.toCanvas(canvas, { logo: { width: 0, height: 0 } }), TypeError);
  assert.throws(() => encode('A').toCanvas(canvas, { logo: image }), TypeError);
});
