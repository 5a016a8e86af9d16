// The front of lines: spaces, tabs and markers of containers; and the link reference definitions at the front of texts. The library returns the line on which a
// block begins, and here these are read again for where it begins there.
const TAB = 9, LINE_FEED = 10, SPACE = 32, GREATER_THAN = 62;
const [PARENTHESIS, CLOSING_PARENTHESIS, COLON, LESS_THAN, BACKSLASH, CLOSING_BRACKET] = Array.from('():<\\]', (it) => it.charCodeAt(0));
const isWhitespace = (code) => code === SPACE || code === TAB || code === LINE_FEED;
const isDigit = (code) => code >= 48 && code <= 57;

/** The front of a line. `column` is the column at which the containers that are passed have their content, and `at` the offset after the spaces and tabs there. */
export class Front {
  #lines;
  #reached;
  // The offset and the column at which these spaces and tabs begin.
  #spaces;

  constructor(lines, line) {
    this.#lines = lines;
    this.column = lines.firstColumn(line);
    this.#passSpaces(lines.startOf(line), this.column);
  }

  #passSpaces(at, column) {
    this.#spaces = [at, column];
    for (; ; at++) {
      const code = this.#lines.codeAt(at);
      if (code === TAB) column += 4 - column % 4;
      else if (code === SPACE) column++;
      else break;
    }
    this.at = at;
    this.#reached = column;
  }

  /** How many columns the spaces and tabs have. */
  get indent() { return this.#reached - this.column; }

  /** Where the content begins, with its spaces and tabs: at the tab of which a container has a part, if there is one. */
  get inside() {
    let [at, column] = this.#spaces;
    while (column < this.column) {
      column += this.#lines.codeAt(at) === TAB ? 4 - column % 4 : 1;
      if (column <= this.column) at++;
    }
    return at;
  }

  /** Passes `>`, and one column of spaces and tabs after it (CommonMark 5.1). */
  passQuote() {
    this.column = this.#reached + 1;
    this.#passSpaces(this.at + 1, this.column);
    if (this.indent > 0) this.column++;
  }

  /** Passes the marker of an item. Returns where the marker ends, and by how many columns what the item holds is indented (CommonMark 5.2). */
  passMarker() {
    const { codeAt } = this.#lines, before = this.column;
    let end = this.at;
    while (isDigit(codeAt(end))) end++;
    end++;
    this.column = this.#reached + end - this.at;
    this.#passSpaces(end, this.column);
    this.column += this.indent > 4 || !(codeAt(this.at) > SPACE) ? 1 : this.indent;
    return { end, width: this.column - before };
  }

  /** Passes containers, as far as the line continues them: a lazy line does not continue all. */
  passContainers(containers) {
    for (const { isQuote, width } of containers) {
      if (isQuote ? this.indent > 3 || this.#lines.codeAt(this.at) !== GREATER_THAN : this.indent < width) return;
      if (isQuote) this.passQuote();
      else this.column += width;
    }
  }
}

/** Reads the definitions at the front of a text. It is certain that they are there, and which of them have a title, so only their ends are looked for
 *  (CommonMark 4.7). */
class Definitions {
  #lines;
  #containers;
  #end;

  constructor(lines, containers, line, at) {
    this.#lines = lines;
    this.#containers = containers;
    this.#begin(line, at);
  }

  #begin(line, at) {
    this.line = line;
    this.at = at;
    this.#end = this.#lines.endOf(line);
  }

  /** Goes to the text of the next line. */
  passLine() {
    if (this.line >= this.#lines.length) throw new Error('a definition has no end');
    const front = new Front(this.#lines, this.line + 1);
    front.passContainers(this.#containers);
    this.#begin(this.line + 1, front.at);
  }

  get #code() { return this.at < this.#end ? this.#lines.codeAt(this.at) : LINE_FEED; }

  #pass() {
    if (this.at < this.#end) this.at++;
    else this.passLine();
  }

  #passWhitespace() {
    while (isWhitespace(this.#code)) this.#pass();
  }

  /** Passes all up to a character that no backslash escapes, and that character. */
  #passUpTo(code) {
    for (; this.#code !== code; this.#pass()) if (this.#code === BACKSLASH && this.at + 1 < this.#end) this.at++;
    this.#pass();
  }

  /** Passes one definition, and returns where it ends. */
  passOne(hasTitle) {
    this.#passUpTo(CLOSING_BRACKET);
    this.#passUpTo(COLON);
    this.#passWhitespace();
    if (this.#code === LESS_THAN) this.#passUpTo(GREATER_THAN);
    else while (!isWhitespace(this.#code)) this.at++;
    if (!hasTitle) return this.at;
    this.#passWhitespace();
    const opening = this.#code;
    this.#pass();
    this.#passUpTo(opening === PARENTHESIS ? CLOSING_PARENTHESIS : opening);
    return this.at;
  }
}

/** Where the definitions begin and end that make up the first lines of a text, up to a line. `titles` says of each in turn whether it has a title. */
export function definitionsOn(lines, containers, { line, at }, last, titles) {
  const read = new Definitions(lines, containers, line, at), found = [];
  for (; ;) {
    const start = read.at;
    found.push([start, read.passOne(titles(found.length))]);
    if (read.line >= last) return found;
    read.passLine();
  }
}
