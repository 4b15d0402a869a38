/// <reference lib="dom" />
// Requiring this puts a document, its window and the interfaces among Node's globals.

export const document: Document;
export const window: Window & typeof globalThis;

/** Take them away again. */
export function restore(): void;
