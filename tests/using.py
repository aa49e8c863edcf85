#!/usr/bin/env python3
"""docs/USING.md is true: every command of it is run and its output compared, every Python example too.

    python3 tests/using.py docs/USING.md PREFIX [--fill]

PREFIX is where ./install has put things. A block of ```console has commands after `$ `, each with what it prints; they share one folder. A block of ```python is an interactive session. A block of
```cpp that begins with a comment `// NAME.cpp` is that file in the folder. With --fill the outputs in the page are written anew.
"""
import doctest
import os
import re
import subprocess
import sys
import tempfile

BLOCK = re.compile(r"^```(console|python|cpp)\n(.*?)^```$", re.M | re.S)


def run(command, folder, prefix):
    paths = {
        "PATH": f"{prefix}/bin:{os.environ['PATH']}",
        "PYTHONPATH": f"{prefix}/lib/gustparsley",
        "PKG_CONFIG_PATH": f"{prefix}/lib/pkgconfig",
        "LD_LIBRARY_PATH": f"{prefix}/lib",
        "CMAKE_PREFIX_PATH": prefix,
        "PYTHONDONTWRITEBYTECODE": "1",
    }
    done = subprocess.run(["bash", "-c", command], cwd=folder, env={**os.environ, **paths}, stdout=subprocess.PIPE, stderr=subprocess.STDOUT, text=True, timeout=120)
    return done.stdout


def console(text, folder, prefix):
    """The block with what its commands really print."""
    out = []
    for line in text.splitlines():
        if line.startswith("$ "):
            out.append(line)
            out.extend(run(line[2:], folder, prefix).splitlines())
    return "\n".join(out) + "\n"


def main(page, prefix, fill=False):
    text = open(page, encoding="utf-8").read()
    checked, made, at = 0, [], 0
    names = {}
    sys.path.insert(0, f"{prefix}/lib/gustparsley")
    with tempfile.TemporaryDirectory() as folder:
        for block in BLOCK.finditer(text):
            made.append(text[at : block.start(2)])
            at = block.end(2)
            kind, body = block.groups()
            if kind == "console":
                really = console(body, folder, prefix)
                if not fill and really != body:
                    sys.exit(f"using: {page} says\n{body}\nand what comes is\n{really}")
                body, checked = really, checked + body.count("$ ")
            elif kind == "python":
                here = os.getcwd()
                os.chdir(folder)
                test = doctest.DocTestParser().get_doctest(body, names, page, page, 0)
                told = doctest.DocTestRunner(verbose=False).run(test, clear_globs=False)
                names.update(test.globs)
                os.chdir(here)
                if told.failed:
                    sys.exit(f"using: an example of {page} is not true")
                checked += told.attempted
            else:
                name = re.match(r"// (\S+\.cpp)", body)
                if name:
                    open(os.path.join(folder, name.group(1)), "w", encoding="utf-8").write(body)
            made.append(body)
    made.append(text[at:])
    if fill:
        open(page, "w", encoding="utf-8").write("".join(made))
    print(f"using: {checked} commands and examples of {page} do what it says")


if __name__ == "__main__":
    main(sys.argv[1], os.path.abspath(sys.argv[2]), "--fill" in sys.argv)
