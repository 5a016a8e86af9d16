// The module of WebAssembly, which stands beside this file.
async function read(url) {
  if (url.protocol !== 'file:') return (await fetch(url)).arrayBuffer();
  const { readFile } = await import('node:fs/promises');
  return readFile(url);
}

export const compiled = async () => WebAssembly.compile(await read(new URL('./markdown_inline.wasm', import.meta.url)));
