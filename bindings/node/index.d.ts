/// <reference lib="dom" />
// Types of the package. The interfaces are TypeScript's own of the DOM, which have more than is here: docs/FROM-JAVASCRIPT.md says what is there.

/** What an owner is shown of another owner's node: one object for one node, which can be compared and nothing else. */
export interface ForeignNode {
  readonly [foreign]: true;
}
declare const foreign: unique symbol;

/** The root of a component, as `attachShadow({ mode: "closed" })` gives it. It is the only way to the component's tree. */
export interface ComponentRoot extends Omit<ShadowRoot, "host" | "ownerDocument"> {
  /** The component has no host: that is a node of whoever attached it. */
  readonly host: null;
  /** The component's own document, whose `defaultView` has interfaces of the component's own. */
  readonly ownerDocument: Document;
}

/** Open a document, with html, head and body, or with what a page of HTML has. Its window is `defaultView`. */
export function openDocument(markup?: string): Document;

/** Run what waits for the end of the script: records of observers, and slotchange. Node does it by itself when promise jobs run. */
export function checkpoint(document: Document): void;

/** End a document, and free its nodes. Every later call of it throws InvalidStateError. */
export function closeDocument(document: Document): void;
