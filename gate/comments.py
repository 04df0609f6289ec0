"""The doc comments and the messages of source files, for gate/prose and gate/widths."""

import ast
import os
import re

from shared.gate import REPOSITORY, read_text

# The files of a package that people write or read, and the folders that are left out.
OF_PACKAGES = (".py", ".rs", ".js", ".ts", ".c", ".h")
LEFT_OUT = {"tests", "examples", "target", "node_modules", "build", "proved", "__pycache__"}

# A doc comment of Rust or Rattle, a comment of C or JavaScript, and a text in quotes.
RUST = re.compile(r"(?:^ *//[/!][^\n]*\n)+", re.MULTILINE)
BLOCK = re.compile(r"/\*+(.*?)\*/", re.DOTALL)
QUOTED = re.compile(r'"((?:[^"\\\n]|\\.)*)"|`((?:[^`\\\n]|\\.)*)`')
COMMENT = re.compile(r"/\*.*?\*/|^ *(?://|#).*?$", re.DOTALL | re.MULTILINE)

# An example in a docstring, up to the next empty line.
PROMPT = re.compile(r"^ *>>> .*?(?=^\s*$|\Z)", re.DOTALL | re.MULTILINE)

# The words of a message: three at least, with a blank between.
MESSAGE = re.compile(r"[A-Za-z]{2,} .*[A-Za-z]{2,}.* [A-Za-z]{2,}")

DOCUMENTED = (ast.Module, ast.ClassDef, ast.FunctionDef, ast.AsyncFunctionDef)


def of_python(text):
    """The docstrings of a module, and its other texts."""
    nodes = list(ast.walk(ast.parse(text)))
    documented = [node for node in nodes if isinstance(node, DOCUMENTED) and ast.get_docstring(node) is not None]
    docs = [PROMPT.sub("", ast.get_docstring(node)) for node in documented]
    docstrings = {id(node.body[0].value) for node in documented}
    texts = [node.value for node in nodes if isinstance(node, ast.Constant) and id(node) not in docstrings]
    return docs, [text for text in texts if isinstance(text, str)]


def of_others(text, name):
    """The doc comments of a file in another language, and its texts in quotes."""
    if name.endswith((".rs", ".rt")):
        docs = [re.sub(r"^ *//[/!] ?", "", comment, flags=re.MULTILINE) for comment in RUST.findall(text)]
    else:
        docs = [re.sub(r"^ *\* ?", "", comment.strip(), flags=re.MULTILINE) for comment in BLOCK.findall(text)]
    return docs, [first or second for first, second in QUOTED.findall(COMMENT.sub("", text))]


def docs_and_messages(text, name):
    """The doc comments of a file, and the messages among its texts."""
    docs, texts = of_python(text) if name.endswith(".py") else of_others(text, name)
    return docs, [text for text in texts if MESSAGE.search(text)]


def lines_of_docs(text, name):
    """The lines of the doc comments of a file, each with its number."""
    lines = text.split("\n")
    if name.endswith(".py"):
        nodes = [node for node in ast.walk(ast.parse(text)) if isinstance(node, DOCUMENTED) and ast.get_docstring(node)]
        spans = [(node.body[0].lineno - 1, node.body[0].end_lineno) for node in nodes]
    else:
        comments = (RUST if name.endswith((".rs", ".rt")) else BLOCK).finditer(text)
        spans = [(text.count("\n", 0, it.start()), text.count("\n", 0, it.end() - 1) + 1) for it in comments]
    return [(number + 1, lines[number]) for first, end in spans for number in range(first, end)]


def package_texts():
    """The texts of the packages' files, by their paths, without tests, examples, build scripts and a module that a tool builds."""
    for folder, below, names in os.walk(os.path.join(REPOSITORY, "packages")):
        below[:] = sorted(name for name in below if name not in LEFT_OUT)
        for name in sorted(names):
            is_script = name.endswith(".py") and "__init__.py" not in names
            if name.endswith(OF_PACKAGES) and name != "module.js" and not is_script:
                path = os.path.join(folder, name)
                yield os.path.relpath(path, REPOSITORY), read_text(path)
