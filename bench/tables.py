"""Tables of languages, by which the program counts texts and files."""
import hashlib
import json
import os
import subprocess
import tempfile

TOP = os.path.dirname(os.path.dirname(os.path.abspath(__file__)))


def summed(stats):
    """The comments of a text and of all texts inside it."""
    return stats["comments"] + sum(summed(it) for it in stats["blobs"].values())


class Table:
    """A table of languages, by which the program counts."""

    def __init__(self, path):
        self.path = os.path.abspath(path)
        with open(path, encoding="utf-8") as file:
            rows = json.load(file)["languages"]
        self.rows = {row.get("name", key): row for key, row in rows.items()}

    def run(self, words, folder):
        """The program's document, by a table, without anyone's configuration."""
        home = {**os.environ, "HOME": folder, "XDG_CONFIG_HOME": folder}
        words = [f"{TOP}/tokei", "--table", self.path, "--no-ignore", "--hidden", "-o", "json", *words]
        ran = subprocess.run(words, cwd=folder, env=home, stdout=subprocess.PIPE, check=True)
        return {name: it["reports"] for name, it in json.loads(ran.stdout).items() if name != "Total"}

    def chosen(self, paths, most, size):
        """For each language the files below these paths that aren't empty and have at most `size` bytes, at most this many, in
        an order that depends on their names alone."""
        with tempfile.TemporaryDirectory(prefix="table-") as room:
            reports = self.run([os.path.abspath(path) for path in paths], room)
        found = {}
        for language, its in reports.items():
            names = sorted((it["name"] for it in its), key=lambda name: hashlib.sha1(name.encode()).digest())
            found[language] = [name for name in names if 0 < os.path.getsize(name) <= size][:most]
        return found

    def file_name(self, language, number):
        """A name by which a file has this language."""
        row = self.rows[language]
        if row.get("extensions"):
            return f"{number}.{row['extensions'][0]}"
        return f"{number}/{row['filenames'][0]}"

    def written(self, language, texts, room):
        """Writes the texts to files that have this language, and answers their names."""
        names = [self.file_name(language, number) for number in range(len(texts))]
        for name, text in zip(names, texts):
            os.makedirs(os.path.dirname(f"{room}/{name}"), exist_ok=True)
            with open(f"{room}/{name}", "wb") as file:
                file.write(text)
        return names

    def comments(self, language, texts):
        """The number of comments in each text."""
        with tempfile.TemporaryDirectory(prefix="table-") as room:
            names = self.written(language, texts, room)
            reports = self.run(["."], room).get(language, [])
        found = {os.path.normpath(it["name"]): summed(it["stats"]) for it in reports}
        return [found[name] for name in names]
