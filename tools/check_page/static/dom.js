// @ts-check
// Elements of the page, by what they are and have.

/** The element with this name.
 * @param {string} name
 * @returns {any} */
export function byId(name) {
  return document.getElementById(name);
}

/** A new element with properties and what is in it.
 * @param {string} tag
 * @param {Record<string, unknown>} [properties]
 * @param {(Node | string)[]} inside
 * @returns {HTMLElement} */
export function made(tag, properties, ...inside) {
  const one = document.createElement(tag);
  Object.assign(one, properties);
  one.append(...inside);
  return one;
}

/** Lets the browser keep a text as a file.
 * @param {string} name
 * @param {Uint8Array | string} text
 * @param {string} type */
export function keep(name, text, type) {
  const address = URL.createObjectURL(new Blob(/** @type {any} */ ([text]), { type }));
  made("a", { href: address, download: name }).click();
  setTimeout(() => URL.revokeObjectURL(address), 1000);
}
