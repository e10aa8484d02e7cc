#!/usr/bin/env python3
"""Writes a text of a given number of bytes to standard output: the same for the same name, of which a shorter one is the
front of a longer one. `make_texts.py NAME BYTES`; without words it prints the names.

The first texts are mixed as in ordinary files; the others are hostile: each has more of one thing than any file should.
"""
import random
import sys

SHARE = 1_000_000  # bytes of a mixed text that are repeated
DEPTH = 1_000_000

STATEMENTS = [
    "int total_{n} = {n} * factor;\n",
    "if (count > {n} && list->next != NULL) {{\n",
    "}}\n",
    "return lookup(table, key, {n});\n",
    "    buffer[{n} % size] = value_{n} + offset;\n",
    "        for (size_t i = 0; i < {n}; i++) sum += data[i] / 2;\n",
    "static const struct entry entries_{n}[] = {{ {{ {n}, 0 }}, {{ 0, 0 }} }};\n",
    "    printf(\"%d items in \\\"%s\\\"\\n\", total_{n}, name);\n",
    "    const char *path = \"http://example.org/{n}\"; // where it comes from\n",
    "    result = a_{n} * b /* scaled */ + c;\n",
]
COMMENTS = ["// the next {n} entries are sorted\n", "    // {n}: see below\n", "//////////////////////// {n}\n"]
BLOCK = "/*\n * Returns the entry {n}, or NULL.\n *\n * The caller keeps the table.\n */\n"
# of 100 snippets 12 are blank lines, 8 line comments, 3 blocks of comments and the others statements
C = STATEMENTS * 23 + COMMENTS * 8 + [BLOCK] * 9 + ["\n"] * 36
RUST = [
    "/// Returns the entry {n}, where there is one.\n///\n/// It is found by its key.\n",
    "/// # Example\n///\n/// ```rust\n/// let entry = entry_{n}(\"key\")?;\n/// ```\n",
    "pub fn entry_{n}(table: &Table, key: &str) -> Option<&Entry> {{\n    table.get(key)?.nth({n})\n}}\n",
    "    let total_{n}: usize = rows.iter().map(|row| row.len() / 2).sum();\n",
    "    let text = format!(\"{{total_{n}}} of \\\"{{name}}\\\" at http://example.org\");\n",
    "    match found {{\n        Some(n) if n > {n} => push(n)?,\n        _ => return Err(Error::Missing),\n    }}\n",
    "impl<'a> Iterator for Rows{n}<'a> {{\n    type Item = &'a [u8];\n}}\n",
    "    // {n} is the least size of a page\n",
    "    let scaled = total_{n} /* of all rows */ * factor;\n",
    "\n",
    "\n",
]
PYTHON = [
    "def entry_{n}(table, key):\n    \"\"\"Returns the entry {n}, or None.\n\n    The caller keeps the table.\n    \"\"\"\n",
    "    return table.get(key, {n})\n",
    "    total_{n} = sum(len(row) // 2 for row in rows)\n",
    "    print(f\"{{total_{n}}} items in '{{name}}'\")\n",
    "    path = 'http://example.org/{n}'  # where it comes from\n",
    "    if count > {n} and found is not None:\n        raise ValueError(\"more than {n}\")\n",
    "class Rows{n}(dict):\n    '''Rows by their key.'''\n",
    "# the next {n} entries are sorted\n",
    "    # {n}: see below\n",
    "\n",
    "\n",
]
MARKDOWN = [
    "# Chapter {n}\n\nThe entries of this chapter are sorted by their keys, and the table keeps them so.\n",
    "A table of `{n}` rows takes a page; see [the next chapter](http://example.org/{n}) for larger ones.\n",
    "- the first row is the head\n- the row {n} is *not* counted\n",
    "| Key | Value |\n|---|---|\n| {n} | the least size |\n",
    "```rust\nfn entry_{n}(key: &str) -> usize {{\n    // the length of its key\n    key.len() + {n}\n}}\n```\n",
    "```c\nint total_{n} = {n}; /* of all rows */\n```\n",
    "```\ntokei --files {n}\n```\n",
    "> An entry may stand in more than one of the {n} tables.\n",
    "\n",
    "\n",
    "\n",
]
JAVASCRIPT = [
    "const total{n} = rows.map((row) => row.length / 2).reduce((a, b) => a + b, {n});\n",
    "if (count > {n} && found !== null) {{\n",
    "}}\n",
    "  return table.get(key, {n});\n",
    "    console.log('{n} items in ' + name);\n",
    "  const path = \"http://example.org/{n}\"; // where it comes from\n",
    "    const text = `${{total{n}}} of ${{name}}`;\n",
    "export function entry{n}(table, key) {{\n",
    "// the next {n} entries are sorted\n",
    "/**\n * Returns the entry {n}, or null.\n *\n * The caller keeps the table.\n */\n",
    "\n",
    "\n",
]
CPP = [
    "template <typename Row> class Table_{n} : public Base<Row> {{\n",
    "    auto total_{n} = std::accumulate(rows.begin(), rows.end(), {n} / 2);\n",
    "    if (found != table.end() && count > {n}) {{\n",
    "}}\n",
    "    return std::make_unique<Row>(table, key, {n});\n",
    "    std::cout << \"{n} items in \" << name << \"\\n\";\n",
    "    const std::string path = \"http://example.org/{n}\"; // where it comes from\n",
    "    Result read_{n}(const Reader &reader, Range range) override;\n",
    "// the next {n} entries are sorted\n",
    "/**\n * Returns the entry {n}, or nullptr.\n *\n * The caller keeps the table.\n */\n",
    "\n",
    "\n",
]
SHELL = [
    "total_{n}=$(wc -l < \"$file\")\n",
    "if [ \"$count\" -gt {n} ] && [ -n \"$found\" ]; then\n",
    "fi\n",
    "    echo \"{n} items in '$name'\"\n",
    "    for row in $rows; do sum=$((sum + row / 2)); done\n",
    "    grep -v '^#' table | sort -k {n} > sorted\n",
    "entry_{n}() {{\n    look_up table \"$1\" {n}\n}}\n",
    "cat > note <<EOF\nThe entry {n} isn't sorted.\nEOF\n",
    "path=http://example.org/{n} # where it comes from\n",
    "# the next {n} entries are sorted\n",
    "\n",
    "\n",
]
PHP = [
    "$total_{n} = array_sum(array_map('strlen', $rows)) / 2;\n",
    "if ($count > {n} && $found !== null) {{\n",
    "}}\n",
    "    return $this->table->get($key, {n});\n",
    "    echo \"{n} items in '$name'\\n\";\n",
    "    $path = 'http://example.org/{n}'; // where it comes from\n",
    "    public function entry{n}(array $table, string $key): ?Entry\n    {{\n",
    "// the next {n} entries are sorted\n",
    "/**\n * Returns the entry {n}, or null.\n *\n * @param array $table stays as it is\n */\n",
    "\n",
    "\n",
]
JSON = [
    "  {{\n    \"id\": {n},\n    \"name\": \"entry {n}\",\n    \"tags\": [\"first\", \"second\"],\n    \"url\": \"http://example.org/{n}\"\n  }},\n",
    "  {{\n    \"id\": {n},\n    \"note\": \"it says \\\"no\\\" // twice\",\n    \"size\": {{ \"rows\": {n}, \"bytes\": null }}\n  }},\n",
    "  {{ \"id\": {n}, \"found\": true, \"weight\": 0.25 }},\n",
]


def mixed(snippets):
    """Snippets in a random order, which is the same each time."""
    pick = random.Random(1)
    share, size = [], 0
    while size < SHARE:
        share.append(pick.choice(snippets).format(n=pick.randrange(100_000)))
        size += len(share[-1])
    return "".join(share)


# the key of a text's language, the text's front, and what is repeated behind it
TEXTS = {
    "C": ("C", "", lambda: mixed(C)),
    "Rust": ("Rust", "", lambda: mixed(RUST)),
    "Python": ("Python", "", lambda: mixed(PYTHON)),
    "Markdown": ("Markdown", "", lambda: mixed(MARKDOWN)),
    "JSON": ("Json", "[\n", lambda: mixed(JSON)),
    "nothing but newlines": ("C", "", lambda: "\n" * SHARE),
    "`x;` on each line": ("C", "", lambda: "x;\n" * SHARE),
    "one comment never closed": ("C", "/*\n", lambda: " * the caller keeps the table\n" * 10_000),
    "comments in one line": ("C", "", lambda: "/* a */ " * SHARE),
    "comments 1,000,000 deep": ("Rust", "", lambda: "/*\n" * DEPTH + "*/\n" * DEPTH),
    "the same in one line": ("Rust", "", lambda: "/*" * DEPTH + "*/" * DEPTH),
    "a quote on each line": ("C", "", lambda: "a = \"b;\n" * SHARE),
    "`////` on each line": ("C", "", lambda: "////\n" * SHARE),
    "`///` on each line": ("Rust", "", lambda: "/// a word\n" * SHARE),
    "elements in one line": ("Html", "", lambda: "<script>a</script>" * SHARE),
    "scripts never closed": ("Html", "", lambda: "<script>a\n" * SHARE),
    "fences in one line": ("Markdown", "", lambda: "```c a``` " * SHARE),
    "target blocks in one line": ("LinguaFranca", "", lambda: "{=a=}" * SHARE),
    "target blocks, no target": ("LinguaFranca", "", lambda: "{=a=}\n" * SHARE),
}

# further texts, nearly all hostile, of which `bench/instructions` counts instructions
FURTHER = {
    "JavaScript": ("JavaScript", "", lambda: mixed(JAVASCRIPT)),
    "a slash and a byte in turn, in one line": ("C", "", lambda: "/x" * SHARE),
    "slashes and blanks in one line": ("C", "", lambda: "/ " * SHARE),
    "lines of 79 slashes": ("C", "", lambda: ("/" * 79 + "\n") * 10_000),
    "a string of backslashes": ("C", '"', lambda: "\\" * SHARE),
    "single and double backquotes": ("Markdown", "", lambda: "` `` " * SHARE),
    "`/// a` and `x` in turn": ("Rust", "", lambda: "/// a\nx\n" * SHARE),
    "long doc comments": ("Rust", "", lambda: ("/// the caller keeps the table, and its rows stay as they were\n" * 200 + "x\n") * 100),
}

# mixed texts that are counted by the program's own rows, whose tokens are far more than those of the bench table: the
# extension of a text's file, its front, and what is repeated behind it
OWN = {
    "C, by the program's row": ("c", "", lambda: mixed(C)),
    "C++, by the program's row": ("cpp", "", lambda: mixed(CPP)),
    "Python, by the program's row": ("py", "", lambda: mixed(PYTHON)),
    "PHP, by the program's row": ("php", "", lambda: mixed(PHP)),
    "shell, by the program's row": ("sh", "", lambda: mixed(SHELL)),
}
ALL = TEXTS | FURTHER | OWN


def key_of(name):
    """The key of a text's language, or the extension of its file."""
    return ALL[name][0]


def write(file, name, size):
    """Writes so many bytes of the text."""
    _, front, repeated = ALL[name]
    left = size - file.write(front[:size].encode("ascii"))
    share = repeated().encode("ascii")
    while left > 0:
        left -= file.write(share[:left])


def main():
    if len(sys.argv) == 1:
        print("\n".join(ALL))
    elif len(sys.argv) == 3 and sys.argv[1] in ALL:
        write(sys.stdout.buffer, sys.argv[1], int(sys.argv[2]))
    else:
        sys.exit(__doc__)


if __name__ == "__main__":
    main()
