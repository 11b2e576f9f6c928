// What the declarations allow and refuse, for the TypeScript compiler.
import { documentOf, draw, encode, encodeSeries, find, labels, load, mend, paper, parseDrawing, parsePicture, read, sheetsOf, Found, PAPERS, QRSymbol, LogoError, NoDrawingError, TooLongError, FieldsError, QRError, type Eci, type Header, type Level } from 'qrproved';
import { encode as encodeAlone, load as loadAlone, QRSymbol as SymbolAlone } from 'qrproved/encode';
import { ContentError, PAYMENT, contact, event, geo, gs1Of, link, mail, payment, paymentBytes, sms, tel, wifi } from 'qrproved/contents';

await load();
await loadAlone();
const alone: SymbolAlone = encodeAlone('a', { level: 'q', boost: false });
const drawings: string[] = [alone.svg({ inline: true, dark: 'navy', light: null }), alone.dataURL({ margin: 2 }), encodeAlone({ gs1: new Uint8Array(3) }).level];
const symbol: QRSymbol = encode('a', { level: 'q', rule: 'with_kanji', eci: 20, boost: false });
const fieldsOfGs1: QRSymbol = encode({ gs1: '(20)01' }, { eci: false });
const level: Level = symbol.level;
const series: QRSymbol[] = encodeSeries(new Uint8Array(3), { version: 3 });
const header: Header | null = read(series[0]).header;
const kanji: boolean = read(symbol).kanji;
const { spent, spentHere, scannable, spentMost, worstMisread, worstUnknown, worstUnknownWrong, wrongFormatLeast } = mend(symbol);
const shares: number[] = [spent, spentHere, spentMost, worstMisread, worstUnknown, worstUnknownWrong, wrongFormatLeast, Number(scannable && kanji)];
const ecis: readonly Eci[] = read(symbol).ecis;
const fields: [string, string][] = read(symbol).gs1 ? read(symbol).fields() : [];
const shown: Uint8Array[] = parseDrawing(draw(series)).squares;
const pixels = { data: new Uint8ClampedArray(4), width: 1, height: 1 };
const squares: Uint8Array[] = parsePicture(pixels);
const found: Found[] = [...find(pixels, { unread: true }), ...find({ width: 9, height: 9, getContext: () => null })];
const places: number[] = found.flatMap((it) => [it.side, it.quarterTurns, it.corners[0][1], Number(it.isInverse && it.isMirrored && it.isRead), it.mend().spent, it.read().version]);
const ofPicture: number[] = [read(pixels).version, mend(found[0]).wrongModules, mend(pixels).spent];
const image: Uint8Array = symbol.png({ fitMm: 20, dpi: 300 });
const canvas = symbol.toCanvas({ width: 0, height: 0, getContext: () => null }, { dark: 'navy', light: null }).width + symbol.svg({ title: 'a', className: 'b', inverse: false });
const logo = encode('a', { logo: 0.2, share: 0.25 }), marked: string = logo.svg({ logo: new Uint8Array(3) }) + logo.logoBox?.row + logo.logoSpent + logo.logo;
const files: Uint8Array[] = [labels(series, { type: 'tspl', mm: 20, dpi: 300, x: 3 }), labels(symbol), documentOf(series, { type: 'svg', mm: 20 })];
const sheets: Uint8Array = sheetsOf([symbol], paper(PAPERS[0], { first: 3 }), { mm: 20, captions: ['a'] });
const text: string = read(symbol).text() + mend(symbol.modules).content.text() + symbol.toJSON().rows[0] + draw(series, { type: 'SVG' }) + symbol.dataURL({ type: 'svg' }) + symbol.svg({ inline: true }) + shares;
try {
  console.log(canvas, marked, level, header, fieldsOfGs1, ecis, fields, image, files, sheets, drawings, text, squares, shown, places, ofPicture);
} catch (error) {
  if (error instanceof TooLongError || error instanceof NoDrawingError || error instanceof FieldsError) {
    const refusal: QRError = error, status: number = error.status;
    console.log(refusal.code, status);
  }
  if (error instanceof LogoError) console.log(error.largest + error.status);
}
const made: string[] = [wifi({ ssid: 'a', password: null, hidden: true }), contact({ name: 'a', phone: ['1', '2'], birthday: new Date() }), event({ summary: 'a', start: new Date() }),
  geo({ latitude: 1, longitude: '2' }), mail({ to: ['a@b.example'], cc: 'c@d.example' }), sms({ number: '1', format: 'sms' }), tel({ number: '1' }), gs1Of(link({ gs1: '(20)01' }))];
const paid: QRSymbol[] = [payment({ name: 'a', iban: 'b', amount: 1 })].flatMap((it) => [encode(it, PAYMENT), encode(paymentBytes(it), PAYMENT)]);
const fieldOf = (error: unknown): string => (error instanceof ContentError ? error.field + error.why : `${made}${paid}`);
fieldOf(made);
// @ts-expect-error: a network has a name
wifi({ password: 'a' });
// @ts-expect-error: there is no such field
contact({ names: 'a' });
// @ts-expect-error: there is no such form
contact({ name: 'a', format: 'vcard' });
// @ts-expect-error: a series needs its version
encodeSeries('a', {});
// @ts-expect-error: a series has the level that is asked for
encodeSeries('a', { version: 1, boost: true });
// @ts-expect-error: an ECI is a number, or false for none
encode('a', { eci: true });
// @ts-expect-error: there is no such option
encode('a', { errorCorrectionLevel: 'L' });
// @ts-expect-error: a document has no dots
symbol.svg({ fitMm: 20 });
// @ts-expect-error: each symbol has a caption of its own
sheetsOf(symbol, paper('l7160'), { captions: 'a' });
// @ts-expect-error: dark modules are not transparent
symbol.svg({ dark: null });
// @ts-expect-error: the fields of GS1 data are a matter of the whole package
encodeAlone({ gs1: '(20)01' });
// @ts-expect-error: what only encodes writes no PNG
alone.png();
// @ts-expect-error: a PNG has one symbol
labels(series, { type: 'png' });
// @ts-expect-error: there is no such level
encode('a', { level: 'X' });
// @ts-expect-error: only calls make symbols
new QRSymbol();
