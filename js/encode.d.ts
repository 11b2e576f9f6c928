/**
 * Encodes and draws QR Code symbols, and nothing else. The calls, options and errors are those of 'qrproved', but a string is always encoded in
 * UTF-8, GS1 data are passed as bytes, and encode takes no mask and no logo.
 */
import type { Colours, Level, Options } from './qrproved.js';

export type { Colours, Level, Options, Rule } from './qrproved.js';

/** A text, which is encoded in UTF-8; or bytes; or the bytes of GS1 data, in which the byte 1D separates fields. */
export type Input = string | Uint8Array | { gs1: Uint8Array };
export { EmptyError, FieldsError, OutOfMemoryError, QRError, SettingsError, TooLongError } from './qrproved.js';

/** A symbol that encode made. */
export class QRSymbol {
  private constructor();
  /** From 1 to 40. */
  readonly version: number;
  /** Modules on a side: 17 + 4 * version. */
  readonly side: number;
  /** From 0 to 7. */
  readonly mask: number;
  /** May be higher than the level that was asked for. */
  readonly level: Level;
  /** side * side bytes, row by row from the top left, without a margin: 1 is dark, 0 is light. */
  readonly modules: Uint8Array;
  dark(row: number, column: number): boolean;
  svg(options?: Colours & { margin?: number; quiet?: boolean; inline?: boolean; title?: string; className?: string; caption?: string }): string;
  toCanvas<Canvas extends { width: number; height: number; getContext(kind: '2d'): unknown }>(canvas: Canvas, options?: Colours & { scale?: number; margin?: number; quiet?: boolean }): Canvas;
  /** Returns a URL that contains the SVG document, with the options of svg. */
  dataURL(options?: Colours & { margin?: number; quiet?: boolean; title?: string; className?: string; caption?: string }): string;
  toJSON(): { version: number; side: number; mask: number; level: Level; rows: string[] };
}

export function encode(input: Input, options?: Options & { boost?: boolean }): QRSymbol;

/** Compiles the module before the first call, without blocking. Only older browsers need it: they refuse to compile it in a call. */
export function load(): Promise<void>;
