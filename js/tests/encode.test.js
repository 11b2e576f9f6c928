/** The file that only encodes and draws, beside the whole package, whose drawings tests/wasm compares with those of the program. */
import assert from 'node:assert/strict';
import { readFileSync } from 'node:fs';
import { test } from 'node:test';
import { fileURLToPath, pathToFileURL } from 'node:url';
import { resolve } from 'node:path';
import { gzipSync } from 'node:zlib';

const folder = process.env.QRPROVED ?? fileURLToPath(new URL('../../out/npm/package', import.meta.url)), at = (name) => pathToFileURL(resolve(folder, `${name}.js`)).href;
const small = await import(at('encode')), whole = await import(at('qrproved'));
const INPUTS = ['A', 'Shelf 12', 'Grüße, 点茗 😀', '1'.repeat(7089), 'https://www.example.org/?q=%41'.repeat(40), Uint8Array.from({ length: 256 }, (_, k) => k), { gs1: Uint8Array.from([0x32, 0x30, 0x30, 0x31]) }];

test('the same symbols and drawings as the whole package', () => {
  for (const input of INPUTS) {
    for (const options of [{}, { level: 'q', version: 5 }, { rule: 'bytes_only', boost: false }, { eci: 26 }, { eci: false }]) {
      const make = (encode) => {
        try {
          const { version, side, mask, level, modules, ...rest } = encode(input, options);
          return { version, side, mask, level, modules, rest };
        } catch (error) {
          return [error.name, error.message, error.code];
        }
      };
      assert.deepEqual(make(small.encode), make(whole.encode), JSON.stringify([String(input).slice(0, 20), options]));
    }
  }
  const [one, other] = [small, whole].map(({ encode }) => encode('Shelf 12', { level: 'M' })), canvas = { getContext: () => ({ fillRect() {} }) };
  for (const options of [{}, { margin: 0, quiet: true }, { inline: true, title: 'a < b', className: 'c' }, { dark: 'navy', light: null, caption: 'Shelf 12' }, { dark: '#fff', light: '#000', inverse: true }]) {
    assert.equal(one.svg(options), other.svg(options), JSON.stringify(options));
  }
  assert.equal(one.dataURL(), other.dataURL({ type: 'svg' }));
  assert.equal(JSON.stringify(one), JSON.stringify(other));
  assert.deepEqual([one.toCanvas(canvas, { scale: 3 }).width, one.dark(0, 0), one.dark(0, 7)], [87, true, false]);
});

test('what it refuses', () => {
  const { encode, EmptyError, SettingsError, TooLongError, FieldsError, QRError } = small;
  assert.throws(() => encode(''), EmptyError);
  assert.throws(() => encode('x'.repeat(3000)), (error) => error instanceof TooLongError && error instanceof QRError && error.status === 2 && error.code === 'TOO_LONG');
  assert.throws(() => encode('A', { version: 41 }), SettingsError);
  assert.throws(() => encode('A').svg({ margin: 101 }), SettingsError);
  assert.throws(() => encode('A').svg({ dark: 'yellow' }), { name: 'SettingsError', message: /contrast/ });
  assert.throws(() => encode({ gs1: Uint8Array.from([0x32, 0x30, 0x1d, 0x1d]) }), FieldsError);
  for (const [input, options] of [['é', { eci: 3 }], ['A', { rule: 'with_kanji' }], [{ gs1: '(20)01' }, {}], [3, {}], ['A', { margin: 4 }]]) {
    assert.throws(() => encode(input, options), TypeError, JSON.stringify([input, options]));
  }
  assert.throws(() => encode('A').svg({ mm: 20 }), TypeError);
});

test('the module may be compiled beforehand', async () => {
  await small.load();
  assert.equal(small.encode('A').side, 21);
});

test('it is one file, of at most 35 KB as servers send it', () => {
  const file = readFileSync(resolve(folder, 'encode.js'));
  assert.ok(!/^import /m.test(file.toString()) && !file.includes(0));
  assert.ok(gzipSync(file).length <= 35 * 1024, `${gzipSync(file).length} bytes`);
});
