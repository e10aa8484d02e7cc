"""Trees of files for measurements: many small ones in the 20 languages of the bench table, larger ones of C, and notebooks."""
import base64
import json
import os
import random

import make_texts

KEYS = {  # the key of each language of the bench table, and an extension of it
    "Bash": "bash", "Batch": "bat", "C": "c", "CSharp": "cs", "Css": "css", "D": "d", "FortranLegacy": "f",
    "FortranModern": "f90", "Html": "html", "JavaScript": "js", "Json": "json", "Jupyter": "ipynb", "LinguaFranca": "lf",
    "Markdown": "md", "Python": "py", "Rust": "rs", "Svelte": "svelte", "Text": "txt", "Toml": "toml", "Vue": "vue",
}
MIXES = {"Rust": "Rust", "Python": "Python", "Markdown": "Markdown", "Json": "JSON"}


def plans():
    """The plan of each tree by its name: key, extension and size of each file."""
    pick = random.Random(1)
    small = [(key, KEYS[key], pick.randrange(2049)) for key in list(KEYS) * 1000]
    large = [("C", "c", pick.randrange(5 * 1024, 60 * 1024)) for _ in range(3000)]
    return {"20 languages": small, "C": large}


def middling(key):
    """The plan of 1,000 files of 5 to 60 KiB in one language."""
    pick = random.Random(1)
    return [(key, KEYS[key], pick.randrange(5 * 1024, 60 * 1024)) for _ in range(1000)]


def pieces(key, sizes):
    """Texts of these sizes in a language."""
    text = make_texts.TEXTS[MIXES.get(key, "C")][2]()
    at = 0
    for size in sizes:
        yield text[at:at + size].encode("ascii")
        at = (at + size) % (len(text) - 70_000)


def make_tree(top, plan):
    """Writes the files of a plan in folders of a hundred; answers their paths by key."""
    by_key = {}
    for at, (key, extension, size) in enumerate(plan):
        by_key.setdefault(key, []).append((f"{top}/d{at // 100:03}/f{at:05}.{extension}", size))
    for key, files in by_key.items():
        for (path, _), text in zip(files, pieces(key, [size for _, size in files])):
            os.makedirs(os.path.dirname(path), exist_ok=True)
            with open(path, "wb") as file:
                file.write(text)
    return {key: [path for path, _ in files] for key, files in by_key.items()}


def notebook(pick, cells):
    """A notebook of that many cells as Jupyter writes it: each third is Markdown, the others have 20 lines of output, and
    each fifth of them a picture of 12,000 bytes besides."""
    made = []
    for at in range(cells):
        cell = {"metadata": {}}
        if at % 3 == 0:
            cell |= {"cell_type": "markdown", "source": [f"# Title {at}\n", "\n", "Some *text*, with `code` in it.\n", "- an item"]}
        else:
            lines = ["import numpy as np\n", "# a comment\n", "\n", f"def f{at}(x):\n", f"    return np.sin(x) + {at}\n", f"print(f{at}(3))"]
            printed = [f"line of output {line}: {pick.random()}\n" for line in range(20)]
            outputs = [{"name": "stdout", "output_type": "stream", "text": printed}]
            if at % 5 == 1:
                picture = {"image/png": base64.b64encode(pick.randbytes(12_000)).decode(), "text/plain": ["<Figure of 1 Axes>"]}
                outputs.append({"data": picture, "metadata": {"needs_background": "light"}, "output_type": "display_data"})
            cell |= {"cell_type": "code", "execution_count": at, "outputs": outputs, "source": lines}
        made.append(cell)
    language = {"file_extension": ".py", "mimetype": "text/x-python", "name": "python", "version": "3.12.4"}
    metadata = {"kernelspec": {"display_name": "Python 3", "language": "python", "name": "python3"}, "language_info": language}
    return {"cells": made, "metadata": metadata, "nbformat": 4, "nbformat_minor": 5}


def make_notebooks(top, count, cells):
    """Writes that many notebooks of that many cells."""
    pick = random.Random(1)
    os.makedirs(top)
    for at in range(count):
        with open(f"{top}/n{at:03}.ipynb", "w", encoding="utf-8") as file:
            json.dump(notebook(pick, cells), file, indent=1, sort_keys=True)
