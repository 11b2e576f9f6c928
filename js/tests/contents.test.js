/**
 * Contents, of the package as it is installed: those of tests/contents.jsonl, of which python/tests/test_contents.py says what a line has.
 * tests/both compares the package with that for Python on random fields.
 */
import assert from 'node:assert/strict';
import { readFileSync } from 'node:fs';
import { resolve } from 'node:path';
import { test } from 'node:test';
import { fileURLToPath, pathToFileURL } from 'node:url';

const folder = process.env.QRPROVED ?? fileURLToPath(new URL('../../out/npm/package', import.meta.url));
const imported = (name) => import(pathToFileURL(resolve(folder, name)).href);
const contents = await imported('contents.js');
const { ContentError, PAYMENT, contact, event, geo, gs1Of, link, payment, paymentBytes, tel, wifi } = contents;
const EXAMPLES = readFileSync(new URL('../../tests/contents.jsonl', import.meta.url), 'utf8').trim().split('\n').map((line) => JSON.parse(line));

const called = ({ call, fields }) => (call === 'gs1_of' ? gs1Of(fields.link) : contents[call](fields));

test('examples', () => {
  for (const example of EXAMPLES.filter((it) => 'text' in it)) assert.equal(called(example), example.text, example.from);
});

test('fields that are wrong', () => {
  for (const example of EXAMPLES.filter((it) => 'error' in it)) {
    assert.throws(() => called(example), (error) => {
      assert.deepEqual([error.name, error.message, error.field], ['ContentError', example.error, example.error.split(' ')[0]]);
      return error instanceof ContentError && `${error.field} ${error.why}` === error.message;
    }, JSON.stringify(example));
  }
});

test('each kind says which fields it has', () => {
  assert.throws(() => wifi({ ssid: 'a', pasword: '12345678' }), { name: 'TypeError', message: 'there is no field pasword; there are ssid, password, security, hidden' });
  assert.throws(() => contact({ name: 'a', names: 'b' }), TypeError);
  for (const given of [undefined, null, '+1']) assert.throws(() => tel(given), { name: 'TypeError', message: 'the fields are an object, as in { number: … }' });
});

test('fields that are null or empty are left out', () => {
  assert.equal(wifi({ ssid: 'a', password: null, security: undefined, hidden: false }), 'WIFI:T:nopass;S:a;;');
  assert.equal(contact({ name: 'a', phone: ['', null, undefined].filter((it) => it !== null && it !== undefined), note: '' }), contact({ name: 'a' }));
});

test('days and times are dates of JavaScript too', () => {
  const of = (start) => /DTSTART(.*)\r/.exec(event({ summary: 'A', start, format: 'vevent' }))[1];
  assert.equal(of(new Date('2026-12-24T18:00:01.5+01:00')), ':20261224T170001Z');
  assert.match(contact({ name: 'A', birthday: new Date('1996-04-15'), format: 'vcard4' }), /\r\nBDAY:19960415\r\n/);
  assert.throws(() => of(new Date('x')), { name: 'ContentError', field: 'start' });
});

test('numbers have no exponent', () => {
  assert.equal(geo({ latitude: 1e-7, longitude: -0, altitude: 12.50 }), 'geo:0.0000001,0,12.5');
  assert.equal(geo({ latitude: -1.25e-7, longitude: 100 }), 'geo:-0.000000125,100');
  for (const latitude of [NaN, Infinity, 1e21]) assert.throws(() => geo({ latitude, longitude: 1 }), { message: 'latitude is no number with a decimal point' });
});

test('the same event has the same text', () => {
  const fields = { summary: 'foo', start: '2026-12-24', location: 'bar' }, text = event(fields);
  assert.equal(event(fields), text);
  // a test vector of the authors of FNV-1a
  assert.match(text, /\r\nUID:20261224-bf9cf968@qrproved\r\nDTSTAMP:20261224T000000Z\r\n/);
});

test('a payment of 331 bytes has version 13', async () => {
  const { encode, read } = await imported('qrproved.js');
  const fields = { name: 'ö'.repeat(70), iban: 'DE33100205000001194700', amount: '999999999.99', text: 'ö'.repeat(50) + 'a'.repeat(32), information: 'a' };
  const text = payment(fields), data = paymentBytes(text);
  assert.equal(data.length, 331);
  for (const input of [text, data]) {
    const symbol = encode(input, PAYMENT), content = read(symbol);
    assert.deepEqual([symbol.version, symbol.level, content.ecis.length, content.text()], [13, 'M', 0, text]);
  }
  const other = payment({ name: 'A€', iban: 'DE33100205000001194700', charset: 8 });
  assert.equal(Buffer.from(paymentBytes(other)).toString('latin1'), other.replace('€', '¤'));
});

test('a link is GS1 data again', () => {
  const gs1 = '[01]09506000134352[10]A(12)%/[17]261231';
  assert.equal(gs1Of(link({ gs1 })), gs1);
});

test('a content that there is not', () => {
  assert.throws(() => contents.contentText('foo', {}), { name: 'TypeError', message: 'there is no content foo; there are wifi, contact, event, geo, mail, sms, tel, payment, link' });
});
