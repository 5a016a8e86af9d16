# Lemmas that nothing cites: each stands in the paragraph that states it, and no other file names it with its module. An import is no citation;
# a name in backquotes in a document is one.
function module_of(path) { # crates/CRATE/proofs/FILE.antt is Rattle.CRATE.proofs.FILE
  sub(/^crates\//, "Rattle.", path); sub(/\.(antt|rt)$/, "", path); gsub(/\//, ".", path)
  return path
}
FNR == 1 { stated = ""; fields = 0; module = module_of(FILENAME); lemmas = FILENAME ~ /\/proofs\/([^\/]*)\.antt$/ && FILENAME !~ /\/Lib\.antt$/ }
FILENAME ~ /\.md$/ { for (n = split($0, word, /`/); n > 1; n--) if (n % 2 == 0) shown[word[n]] = 1; next }
/^[ \t]*$/ { stated = ""; fields = 0; next }
/^[ \t]*(ghost )?(pub )?use / {
  line = $0
  sub(/^[ \t]*(ghost )?(pub )?use /, "", line)
  from = line
  sub(/[ ;].*|\.\{.*/, "", from)
  if (from ~ /^Rattle\.markdown_inline\.proofs\.markdown_/) { # what markdown_inline hands on, under the name of its crate
    split(from, part, ".")
    sub(/^Rattle\.markdown_inline\.proofs\.[^.]*/, "Rattle." part[4] ".proofs", from)
  }
  users[from] = users[from] " " FILENAME
  for (n = split(line, word, /[{},; ]+/); n > 2; n--) if (word[n - 1] == "as") called[FILENAME, word[n - 2]] = word[n]
  next
}
/^[ \t]*(pub )?mod / { next }
{
  line = $0
  if (FILENAME ~ /\.antt$/) sub(/(^|[ \t])--([ \t].*)?$/, "", line)
  if (line ~ /^[ \t]*(pub )?(record|data) /) fields = 1
  if (lemmas && !fields && match(line, /^[ \t]*(abbrev |unfoldable )?(pub )?[^][ \t(){},;:]+( \{[^}]*\})* : /)) {
    n = split(line, word, /[ \t]+/)
    for (i = 1; i <= n && (word[i] == "" || word[i] == "abbrev" || word[i] == "unfoldable" || word[i] == "pub"); i++);
    stated = word[i]
    at[FILENAME, stated] = module
  }
  while (match(line, /[A-Za-z0-9_]+(::[A-Za-z0-9_]+)+/)) { # a path in an attribute: CRATE::proofs::FILE::NAME
    path = substr(line, RSTART, RLENGTH)
    line = substr(line, 1, RSTART - 1) " " substr(line, RSTART + RLENGTH)
    split(FILENAME, folder, "/")
    sub(/^crate::/, folder[2] "::", path)
    gsub(/::/, ".", path)
    named["Rattle." path] = 1
  }
  n = split(line, word, /[][ \t(){},;.:`]+/)
  for (i = 1; i <= n; i++) if (word[i] != stated) cited[FILENAME, word[i]] = 1
}
END {
  for (key in at) {
    split(key, part, SUBSEP)
    name = part[2]
    found = (key in cited) || (name in shown) || ((at[key] "." name) in named)
    for (n = split(users[at[key]], file, " "); n > 0 && !found; n--) {
      other = (file[n], name) in called ? called[file[n], name] : name
      found = (file[n], other) in cited
    }
    if (!found) print part[1] " " name
  }
}
