// The tree of mdast, for programs of unified: plain objects with positions.
const END = /\n$/;
const PARENTS = new Set(['root', 'paragraph', 'heading', 'list', 'listItem', 'blockquote', 'emphasis', 'strong', 'delete', 'link', 'linkReference']);

const pointOf = (line, column, offset) => ({ line, column, offset });

/** What a reference or a definition has of its label. Two labels match if their identifiers are equal. */
const associated = ({ label }, document) => ({
  identifier: label.replace(/[ \t\r\n]+/g, ' ').replace(/^ | $/g, '').toLowerCase().toUpperCase().toLowerCase(), label: /[\\&]/.test(label) ? document.resolved(label) : label,
});

/** What nodes of a kind have beside their children. */
const FIELDS = {
  __proto__: null,
  heading: ({ level }) => ({ depth: level }),
  list: ({ ordered, startNumber, spread }) => ({ ordered, start: startNumber, spread }),
  listItem: ({ spread, checked }) => ({ spread, checked }),
  code: ({ lang, info, text }) => ({ lang, meta: /^[ \t]*[^ \t]+[ \t]+(.*[^ \t])/s.exec(info ?? '')?.[1] ?? null, value: text.replace(END, '') }),
  math: ({ info, text }) => ({ meta: info || null, value: text.replace(END, '') }),
  frontMatter: ({ text }) => ({ value: text.replace(END, '') }),
  html: ({ text }) => ({ value: text.replace(END, '') }),
  text: ({ text }) => ({ value: text }),
  inlineCode: ({ text }) => ({ value: text }),
  inlineMath: ({ text }) => ({ value: text }),
  definition: (node, document) => ({ ...associated(node, document), title: node.title, url: node.url }),
  link: ({ title, url }) => ({ title, url }),
  image: ({ title, url, alt }) => ({ title, url, alt }),
  linkReference: (node, document) => ({ ...associated(node, document), referenceType: node.reference }),
  imageReference: (node, document) => ({ ...associated(node, document), referenceType: node.reference, alt: node.alt }),
};

function madeOf(node, document) {
  const { kind, line, column, start, endLine, endColumn, end } = node;
  const made = { type: kind === 'frontMatter' ? node.lang : kind, ...FIELDS[kind]?.(node, document), position: { start: pointOf(line, column, start), end: pointOf(endLine, endColumn, end) } };
  if (PARENTS.has(kind)) made.children = [];
  return made;
}

/** Cuts off the space, the tab or the line ending after a checkbox. The text and the paragraph begin after it, as in remark, where a text that was only this is taken
 *  out, and the paragraph begins as before. */
function cutCheck(paragraph, lines) {
  const [first] = paragraph.children;
  if (first?.type !== 'text' || !/^[ \t\n]/.test(first.value)) return;
  const { line, column, offset } = first.position.start, isLine = first.value.startsWith('\n');
  first.value = first.value.slice(1);
  if (first.value === '') {
    paragraph.children.shift();
  } else {
    first.position.start = isLine ? pointOf(line + 1, 1, lines.starts[line]) : pointOf(line, column + 1, offset + 1);
    paragraph.position.start = { ...first.position.start };
  }
}

/** The JSON of a tree. */
export function jsonOf(tree) {
  const parts = [], todo = [tree];
  while (todo.length > 0) {
    const it = todo.pop();
    if (typeof it === 'string') {
      parts.push(it);
      continue;
    }
    const { children, ...fields } = it, words = JSON.stringify(fields);
    parts.push(children ? `${words.slice(0, -1)},"children":[` : words);
    if (!children) continue;
    todo.push(']}');
    for (let at = children.length - 1; at >= 0; at--) todo.push(children[at], ...at > 0 ? [','] : []);
  }
  return parts.join('');
}

/** The tree of mdast of a document. What is in an image is its description. */
export function mdastOf(root, document) {
  const made = madeOf(root, document), todo = [[root, made]], items = [];
  while (todo.length > 0) {
    const [node, parent] = todo.pop();
    for (const child of node.children) {
      const it = madeOf(child, document);
      parent.children.push(it);
      if (it.children) todo.push([child, it]);
      if (typeof child.checked === 'boolean') items.push(it);
    }
  }
  for (const { children } of items) cutCheck(children.find(({ type }) => type === 'paragraph'), document.lines);
  return made;
}
