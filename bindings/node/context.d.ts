/// <reference lib="dom" />
import type { Context } from "node:vm";

/** Make a `vm` context of a document: the page's, or a component's. Its global object has that document, its window and its interfaces. */
export function contextOf(document: Document): Context;

/** Run a program in a context. Gives the value of its last statement. */
export function run(context: Context, source: string, filename?: string): unknown;
