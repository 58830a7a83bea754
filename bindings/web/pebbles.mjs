// The pebble game, which tells the edges of a graph that depend on one another, as the Python package plays it (matbench/truss/pebbles.py).
//
// Edges are independent if no set of v vertices, v at least 2, has more than each * v - short edges with both ends in it. With 2 and 3 these are the
// bars of plane trusses in general position (Laman, 1970), with 3 and 3 the bars between bodies in the plane, and with 6 and 6 those between bodies in
// space (Tay, 1984). The game is that of Lee and Streinu (2008).

/** How many independent edges have both ends in so many vertices, at most. */
export function mostEdges({ each, short }, vertices) {
  return each * vertices - short;
}

/**
 * Independent edges, each of which points from the end whose pebble lies on it to the other end. A vertex has `each` pebbles, free or on the edges that
 * point away from it.
 */
class PebbleGame {
  constructor(count, sparsity) {
    this.sparsity = sparsity;
    this.free = Array(count).fill(sparsity.each);
    this.out = Array.from({ length: count }, () => []);
  }

  /** Adds an edge if it is independent of those that are there, and tells whether it is. */
  add(edge, [u, v]) {
    if (u === v || this.#gather(u, v) <= this.sparsity.short) return false;
    this.free[u] -= 1;
    this.out[u].push({ edge, head: v });
    return true;
  }

  /** The vertices of the edges on which an edge depends that could not be added just now. */
  dependence([u, v]) {
    const seen = new Set([u, v]);
    for (const tail of seen) for (const { head } of this.out[tail]) seen.add(head);
    return seen;
  }

  /** The largest set of vertices with both of these that has as many edges as can be, or null if there is no such set. */
  component([u, v]) {
    if (this.#gather(u, v) > this.sparsity.short) return null;
    const into = this.out.map(() => []);
    this.out.forEach((edges, tail) => edges.forEach(({ head }) => into[head].push(tail)));
    const loose = new Set([...this.free.keys()].filter((it) => this.free[it] > 0 && it !== u && it !== v));
    for (const it of loose) for (const tail of into[it]) loose.add(tail);
    return new Set([...this.out.keys()].filter((it) => !loose.has(it)));
  }

  /** Moves as many free pebbles as are needed for an edge to both ends, as far as there are so many, and tells how many lie there. */
  #gather(u, v) {
    while (this.free[u] < this.sparsity.each && this.#bring(u, v));
    while (this.free[u] + this.free[v] <= this.sparsity.short && this.#bring(v, u));
    return this.free[u] + this.free[v];
  }

  /** Moves a free pebble from a vertex other than `kept` to this one, if one is reached. */
  #bring(start, kept) {
    const came = new Map([[start, null]]);
    const stack = [start];
    while (stack.length > 0) {
      const tail = stack.pop();
      for (const { edge, head } of this.out[tail]) {
        if (came.has(head)) continue;
        came.set(head, { edge, tail });
        if (this.free[head] > 0 && head !== kept) {
          this.#turn(start, head, came);
          return true;
        }
        stack.push(head);
      }
    }
    return false;
  }

  /** Turns the edges of the way by which the search came from the start to the end. */
  #turn(start, end, came) {
    this.free[end] -= 1;
    this.free[start] += 1;
    for (let at = end; at !== start; ) {
      const { edge, tail } = came.get(at);
      this.out[tail].splice(this.out[tail].findIndex((it) => it.edge === edge), 1);
      this.out[at].push({ edge, head: tail });
      at = tail;
    }
  }
}

/** A largest set of independent ones of these edges, in which earlier ones go first. */
export function largestBasis(count, edges, sparsity, order) {
  const game = new PebbleGame(count, sparsity);
  return order.filter((it) => game.add(it, edges[it])).sort((a, b) => a - b);
}

/** Joins circuits that share an edge. */
function groupsOfCircuits(count, circuits) {
  const root = [...Array(count).keys()];
  const find = (edge) => {
    while (root[edge] !== edge) edge = root[edge] = root[root[edge]];
    return edge;
  };
  for (const circuit of circuits) for (const edge of circuit) root[find(edge)] = find(circuit[0]);
  const groups = new Map();
  for (const edge of [...new Set(circuits.flat())].sort((a, b) => a - b)) {
    if (!groups.has(find(edge))) groups.set(find(edge), []);
    groups.get(find(edge)).push(edge);
  }
  return [...groups.values()];
}

/** The rigid components that have an edge, the largest first. */
function componentsOf(game, edges, basis) {
  const [found, done] = [[], new Set()];
  for (const edge of basis) {
    if (done.has(edge)) continue;
    const component = game.component(edges[edge]);
    if (component === null) continue;
    found.push(component);
    for (const it of basis) if (edges[it].every((end) => component.has(end))) done.add(it);
  }
  return found.sort((a, b) => b.size - a.size || Math.min(...a) - Math.min(...b));
}

/**
 * The edges of so many vertices that depend on one another, by their places: a `basis`, a largest set of independent ones; `groups`, of each of which
 * any edge may be missing without fewer independent ones; `critical`, the edges in no group; and `components`, sets of vertices that are rigid.
 */
export function studyEdges(count, edges, sparsity) {
  const game = new PebbleGame(count, sparsity);
  const [basis, circuits] = [[], []];
  edges.forEach((edge, place) => {
    if (game.add(place, edge)) {
      basis.push(place);
    } else if (edge[0] === edge[1]) {
      circuits.push([place]);
    } else {
      const within = game.dependence(edge);
      circuits.push([place, ...basis.filter((it) => edges[it].every((end) => within.has(end)))]);
    }
  });
  const groups = groupsOfCircuits(edges.length, circuits);
  const grouped = new Set(groups.flat());
  return { basis, groups, critical: basis.filter((it) => !grouped.has(it)), components: componentsOf(game, edges, basis) };
}
