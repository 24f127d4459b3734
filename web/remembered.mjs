// Schemas that were used before. The browser keeps them in a store of its own on this machine, for pages of this origin.
//
// A schema that was read is remembered in the browser's store (IndexedDB), under the name that it serves, 20 at most;
// the button "Forget" takes all away. It is taken only where no schema is chosen and the file names it, and the page
// says so. In Chromium all pages that are opened from a disk share that store, so another page on the disk could read a
// listing there; files are never kept.

const STORE = "schemas";
// So many are kept, those that were used last.
const MOST_KEPT = 20;

/** What a request of the store answers. */
function answered(request) {
  return new Promise((done, failed) => {
    request.onsuccess = () => done(request.result);
    request.onerror = () => failed(request.error);
  });
}

/** Does something with the store, and closes it. */
async function withStore(mode, act) {
  const asked = indexedDB.open("p21", 1);
  asked.onupgradeneeded = () => asked.result.createObjectStore(STORE, { keyPath: "serves" });
  const opened = await answered(asked);
  try {
    return await act(opened.transaction(STORE, mode).objectStore(STORE));
  } finally {
    opened.close();
  }
}

/** The schemas that are kept: the name that each serves, its file by name and text, and when it was used. None where there is no store. */
export async function remembered() {
  try {
    return await withStore("readonly", (store) => answered(store.getAll()));
  } catch {
    return [];
  }
}

/** Keeps a schema by the name that it serves. A browser that keeps nothing, as in a private window, is no mistake. */
export async function remember(serves, file) {
  try {
    const text = new Blob([await file.arrayBuffer()]);
    await withStore("readwrite", async (store) => {
      await answered(store.put({ serves, name: file.name, text, used: Date.now() }));
      const all = await answered(store.getAll());
      const old = all.sort((one, other) => other.used - one.used).slice(MOST_KEPT);
      await Promise.all(old.map((each) => answered(store.delete(each.serves))));
    });
  } catch {
    // It is asked for again next time.
  }
}

/** Forgets all schemas. */
export async function forgetAll() {
  try {
    await withStore("readwrite", (store) => answered(store.clear()));
  } catch {
    // There is nothing then.
  }
}
