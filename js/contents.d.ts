/**
 * Texts that telephones and banks know what to do with. Each call returns the text to encode, and throws ContentError if a field is wrong.
 * A field that is undefined, null or empty is left out. A field of another name is a TypeError.
 */

type Text = string | null;
type Texts = string | readonly string[] | null;
/**
 * A day, as '2026-12-24'; or a time: '2026-12-24T18:00' is that of the reader's place, and 'Z' or '+01:00' at the end is its zone. A Date is a
 * time in UTC.
 */
type Time = string | Date;

/** A field of a content is wrong. */
export class ContentError extends Error {
  constructor(field: string, why: string);
  /** The name of the field. */
  readonly field: string;
  /** What is said of it. */
  readonly why: string;
}

/**
 * Returns the text for access to a wireless network. `security` is 'WPA', which is WPA, WPA2, or WPA2 together with WPA3; 'WPA3', which is
 * WPA3 alone; 'WEP' or 'none'. Unless it is given, it is 'WPA' if there is a password, and else 'none'. `hidden` says that the network does
 * not tell its name. A name or a password of hexadecimal digits is written as any other: quotation marks around it, as the wiki of zxing
 * advises, are a part of it for readers that do not know of them.
 */
export function wifi(fields: { ssid: string; password?: Text; security?: 'WPA' | 'WPA3' | 'WEP' | 'none' | null; hidden?: boolean }): string;

export interface Contact {
  /** The whole name, as it is shown; made of its parts unless given. */
  name?: Text;
  given?: Text;
  family?: Text;
  /** Other given names. */
  additional?: Text;
  prefix?: Text;
  suffix?: Text;
  nickname?: Text;
  organization?: Text;
  /** The position in the organization. */
  title?: Text;
  phone?: Texts;
  mobile?: Texts;
  work?: Texts;
  fax?: Texts;
  email?: Texts;
  url?: Texts;
  street?: Text;
  city?: Text;
  region?: Text;
  postcode?: Text;
  country?: Text;
  /** A day, as '1996-04-15'; of a Date that in UTC. */
  birthday?: string | Date | null;
  note?: Text;
  /** 'vcard3' (RFC 2426) unless given; 'vcard4' (RFC 6350); or 'mecard', which has no place for some fields. */
  format?: 'vcard3' | 'vcard4' | 'mecard' | null;
}

/**
 * Returns the text of a contact. It has a name, a given or a family name, or an organization. Lines are not folded, which both documents
 * allow, and which telephones read best.
 */
export function contact(fields: Contact): string;

/**
 * Returns the text of an event (RFC 5545). Of days, `end` is the first day after the event. Unless they are given, `uid` is made of the
 * start, the summary and the location, and `stamp` is the start, so that the same fields have the same text. The format 'vevent' leaves out
 * what is around the event, and these two. Lines are not folded.
 */
export function event(fields: {
  summary: string; start: Time; end?: Time | null; location?: Text; description?: Text; url?: Text; uid?: Text; stamp?: Time | null;
  format?: 'icalendar' | 'vevent' | null;
}): string;

/**
 * Returns the text of a place (RFC 5870): degrees north and east, and metres above the ellipsoid of WGS 84. `uncertainty` is how many
 * metres the place may be off.
 */
export function geo(fields: { latitude: number | string; longitude: number | string; altitude?: number | Text; uncertainty?: number | Text }): string;

/** Returns the text of an email to write (RFC 6068). */
export function mail(fields: { to: string | readonly string[]; cc?: Texts; bcc?: Texts; subject?: Text; body?: Text }): string;

/**
 * Returns the text of a short message to write. The format 'smsto' is what most telephones read together with its text; 'sms' is the
 * address of RFC 5724, of which some telephones take the number alone.
 */
export function sms(fields: { number: string; body?: Text; format?: 'smsto' | 'sms' | null }): string;

/**
 * Returns the text of a telephone number (RFC 3966). Of a number without + that document asks also where it is valid, which telephones do
 * not understand: it is left out.
 */
export function tel(fields: { number: string }): string;

/**
 * Returns the text of a SEPA credit transfer (EPC069-12), which says that it is of version 001 if `bic` is given, and else of version 002.
 * `amount` is in euros; whoever pays chooses it unless it is given. There is a `text` or a `reference` of ISO 11649. Encode the text with
 * the options PAYMENT, and with a `charset` from 2 to 8, which are parts of ISO/IEC 8859, its paymentBytes.
 */
export function payment(fields: {
  name: string; iban: string; amount?: number | Text; bic?: Text; purpose?: Text; reference?: Text; text?: Text; information?: Text;
  charset?: number | Text;
}): string;

/**
 * How a payment is encoded by EPC069-12: at level M, and without a header for its character set, which its text names. So it is of version
 * 13 at most: encode(payment({ .. }), PAYMENT).
 */
export const PAYMENT: { readonly level: 'M'; readonly boost: false; readonly eci: false };

/** Returns the bytes of a payment in the character set that its third line names. */
export function paymentBytes(text: string): Uint8Array;

/**
 * Returns GS1 data as the address of a page (GS1 Digital Link). The first field that identifies something, such as (01), is in the path, with
 * the fields that say more of it; the others follow after the question mark. The values are checked as those of encode({ gs1: .. }).
 * `domain` is 'https://id.gs1.org' unless given.
 */
export function link(fields: { gs1: string; domain?: Text }): string;

/**
 * Returns the GS1 data in the address of a page, as a text for encode({ gs1: .. }). A GTIN of 8, 12 or 13 digits gets zeros before it. What
 * follows the question mark and has no application identifier as its name is left out.
 */
export function gs1Of(address: string): string;

export type Kind = 'wifi' | 'contact' | 'event' | 'geo' | 'mail' | 'sms' | 'tel' | 'payment' | 'link';

/** What is known of a field, for programs that show a form. */
export interface Field {
  /** What it is, in English. */
  readonly help?: string;
  /** The values that it may have, if they are few. */
  readonly choices?: Readonly<Record<string, string>>;
  readonly default?: string;
  readonly needed?: boolean;
  /** Whether it may be an array. */
  readonly many?: boolean;
  /** The type of its text: 'flag' is true or false, and 'text' may have several lines. */
  readonly is?: string;
  /** Whether the call makes it, so that it cannot be given. */
  readonly made?: boolean;
}

/** The kinds of contents, by the names of the calls, each with its fields. */
export const KINDS: Readonly<Record<Kind, { readonly help: string; readonly fields: Readonly<Record<string, Field>> }>>;

/** Returns the text of a kind of content, as the call of this name does. */
export function contentText(kind: Kind, fields: Readonly<Record<string, unknown>>): string;
