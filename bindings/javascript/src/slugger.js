// Names of headings for links, as GitHub makes them.

/** A function that makes ids of the texts of headings: in lower case, with `-` for spaces and without punctuation. No two are alike: after `a` comes `a-1`. */
export function slugger() {
  const counts = new Map();
  return (text) => {
    const slug = text.toLowerCase().replace(/[^\p{Alphabetic}\p{M}\p{Nd}\p{Pc}\- ]/gu, '').replaceAll(' ', '-');
    let found = slug;
    while (counts.has(found)) {
      counts.set(slug, counts.get(slug) + 1);
      found = `${slug}-${counts.get(slug)}`;
    }
    counts.set(found, 0);
    return found;
  };
}
