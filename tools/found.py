"""The languages that the program finds by the names and first lines of files."""
import json
import os
import subprocess
import tempfile

TOP = os.path.dirname(os.path.dirname(os.path.abspath(__file__)))


def languages_of(files, table):
    """For each of these files, each a name and a text, the name of the language by which the program counts it with this
    table and without anyone's configuration; None where it counts it by none. Each is made in a folder of its own, since a
    file system may take two names for one; all are counted in one run."""
    with tempfile.TemporaryDirectory() as folder:
        for number, (name, text) in enumerate(files):
            os.mkdir(f"{folder}/{number}")
            with open(f"{folder}/{number}/{name}", "w", encoding="utf-8") as file:
                file.write(text)
        words = [f"{TOP}/tokei", "--table", os.path.abspath(table), "--hidden", "--no-ignore", "--output", "json", "."]
        home = {**os.environ, "HOME": folder, "XDG_CONFIG_HOME": folder}
        run = subprocess.run(words, cwd=folder, env=home, stdout=subprocess.PIPE, check=True)
    document = json.loads(run.stdout)
    document.pop("Total", None)
    found = {report["name"]: language for language, counted in document.items() for report in counted["reports"]}
    return [found.get(f"./{number}/{name}") for number, (name, _) in enumerate(files)]
