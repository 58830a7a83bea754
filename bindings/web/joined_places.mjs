// Which places links join, and by which links.

/** The groups of places that some links join, each a list, the largest first. */
export function groupsJoined(places, links) {
  const group = new Map(places.map((it) => [it, [it]]));
  for (const { from, to } of links) {
    const [one, other] = [group.get(from), group.get(to)];
    if (one === other) continue;
    one.push(...other);
    for (const it of other) group.set(it, one);
  }
  return [...new Set(group.values())].sort((a, b) => b.length - a.length);
}

/** The links of a way from one place to another along some links, or null where there is none. */
export function wayBetween(from, to, links) {
  const came = new Map([[from, null]]);
  for (const place of came.keys()) {
    for (const it of links) {
      const next = it.from === place ? it.to : it.to === place ? it.from : null;
      if (next !== null && !came.has(next)) came.set(next, { link: it, place });
    }
  }
  if (!came.has(to)) return null;
  const found = [];
  for (let step = came.get(to); step; step = came.get(step.place)) found.unshift(step.link);
  return found;
}
