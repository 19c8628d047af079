"""Writes what the program has to print: what Jinja2 renders, and the code of templates by the model of `fuzz/`.

    python3 expected.py > stdout

Made with Jinja2 3.1.6.
"""
import hashlib
import json
import sys
from pathlib import Path

import jinja2

here = Path(__file__).resolve().parent
sys.path.insert(0, str(here.parent.parent / "fuzz"))
import config
import model

parts = (here / "stdin").read_text().split("=== ")[1:]
templates = dict(part.split("\n", 1) for part in parts)
files = {name: (here / "data" / name).read_text() for name in (here / "args").read_text().split()}
templates.update(files)
# What Jinja2 refuses or breaks is given to it in other words that mean the same.
for name, written, instead in [
    # A comma behind the last name of an import.
    ("server.conf", "as cert, %}", "as cert %}"),
    # An argument that a call block does not name.
    ("form.html", "call(id) field", "call(id, value) field"),
    # An include without context in a macro, which makes a generator of it.
    ("deployment.yaml", " without context", ""),
]:
    templates[name] = templates[name].replace(written, instead)


def code_of(name):
    """What `mjc code` has to print of a file."""
    return model.Text(files[name], config.of_options([]), True).answer("code").out.rstrip("\n")


environment = jinja2.Environment(
    loader=jinja2.DictLoader(templates), extensions=["jinja2.ext.do", "jinja2.ext.loopcontrols"]
)
# What Jinja2 lacks is made here as the program makes it.
environment.filters["markdown"] = lambda text: f"<p>{text}</p>"
environment.filters["quote"] = json.dumps
environment.filters["sha256"] = lambda text: hashlib.sha256(text.encode()).hexdigest()
environment.globals["code_of"] = code_of
environment.globals["remarks_of"] = lambda order, *topics: topics
environment.tests["startingwith"] = str.startswith
print(environment.get_template(next(iter(templates))).render())
