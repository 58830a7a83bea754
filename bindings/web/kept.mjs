// What stands in the page, kept by the browser for this tab until the tab is closed, so that it is there when the page is loaded again. Where a
// browser lets a page keep nothing, or not so much, nothing is kept.

const NAME = "matbench";

/** Keeps the first of these objects that there is room for. */
export function keep(...objects) {
  for (const object of objects) {
    try {
      sessionStorage.removeItem(NAME);
      sessionStorage.setItem(NAME, JSON.stringify(object));
      return;
    } catch {
      // The next one may be smaller.
    }
  }
}

/** What was kept, or null. */
export function kept() {
  try {
    return JSON.parse(sessionStorage.getItem(NAME));
  } catch {
    return null;
  }
}
