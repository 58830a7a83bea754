// Where the page takes the module and the worker from: files beside it. The page that is one file has other functions in their place.

/** The bytes of matbench.wasm. */
export async function loadModule() {
  const answer = await fetch("matbench.wasm");
  if (!answer.ok) throw new Error(`matbench.wasm: ${answer.status} ${answer.statusText}`);
  return answer.arrayBuffer();
}

/** A new worker that makes one call. */
export function startWorker() {
  return new Worker("worker.mjs", { type: "module" });
}
