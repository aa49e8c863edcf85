#!/usr/bin/env python3
"""What changed since a commit, old and new side by side: signatures and clauses of functions, types and traits, definitions, and statements of specs/ and of proofs/.

    python3 tools/changed.py COMMIT [--pub]      as text of docs/DESIGN-PASS.md; --pub leaves out functions that are not pub
"""
import pathlib
import re
import subprocess
import sys

FN = re.compile(r"^(\s*)(?:#\[.*\]\s*)?((?:pub(?:\(crate\))? )?(?:final )?(?:const )?(?:unsafe )?(?:extern \"C\" )?fn (\w+).*)")
OWNER = re.compile(r"^(?:pub )?(impl|trait)\b(.*?)\{?$")
TYPE = re.compile(r"^(?:pub )?(struct|enum)\s+(\w+)")
DECL = re.compile(r"^(\s*)((?:(?:pub|abbrev|unfoldable|private|data|record) )*)([^\s:(){}=]+)((?: [({][^=]*?)?) : (.*)$")


def files(commit, pattern):
    if commit is None:
        return {str(p): p.read_text(encoding="utf-8") for p in sorted(pathlib.Path("crates").rglob("*")) if p.is_file() and re.fullmatch(pattern, str(p))}
    names = subprocess.run(["git", "ls-tree", "-r", "--name-only", commit, "crates"], capture_output=True, text=True, check=True).stdout.split("\n")
    return {n: subprocess.run(["git", "show", f"{commit}:{n}"], capture_output=True, text=True, check=True).stdout for n in names if re.fullmatch(pattern, n)}


def flat(lines):
    return re.sub(r",? ?([)\]}>])", r"\1", re.sub(r"([(\[{<]) ", r"\1", " ".join(" ".join(lines).split())))


def code(texts, only_pub):
    """Functions with their clauses, and types, by crate, owner and name."""
    found = {}
    for name, text in texts.items():
        crate, lines, owner, i = name.split("/")[1], text.splitlines(), "", 0
        while i < len(lines):
            line = lines[i]
            if line.startswith("mod tests"):
                break
            m = OWNER.match(line)
            if m and not line.startswith(" "):
                owner = (m.group(1) + m.group(2)).strip()
            if line == "}":
                owner = ""
            t = TYPE.match(line)
            if t and (line.startswith("pub") or not only_pub):
                j = i
                while j < len(lines) and not (lines[j] == "}" or lines[j].rstrip().endswith(";")):
                    j += 1
                found[(crate, "", t.group(2))] = flat(x for x in lines[i:j + 1] if not x.strip().startswith("//"))
                i = j
            f = FN.match(line)
            if f:
                j, head = i, []
                while j < len(lines):
                    if lines[j].strip() == "{":
                        break
                    head.append(lines[j].rstrip("{ ") if lines[j].rstrip().endswith("{") and "requires" not in lines[j] and "ensures" not in lines[j] else lines[j])
                    if lines[j].rstrip().endswith("{") and " {" in lines[j] and not re.match(r"\s*(requires|ensures)", lines[j]) or lines[j].rstrip().endswith(";"):
                        break
                    j += 1
                if line.lstrip().startswith("pub") or owner.startswith("trait") or " for " in owner or not only_pub:
                    found[(crate, owner, f.group(3))] = flat(head)
                i = j
            i += 1
    return found


def logic(texts):
    """Definitions whole, and other declarations by their statement, by crate and name."""
    found = {}
    for name, text in texts.items():
        parts = name.split("/")
        if parts[-1] in ("Answers.antt", "Invariants.antt", "Lib.antt", "Rules.antt"):
            continue
        crate, current, kind, indent = parts[1], None, "", 0
        module = []
        for line in text.splitlines():
            if re.match(r"^\s*--", line) or not line.strip() or re.match(r"^use |^module |^\s*where$|^pub use ", line):
                if not line.strip():
                    current = None
                continue
            m = DECL.match(line)
            if m and not line.lstrip().startswith(("let ", "|")):
                key = (crate, m.group(3))
                if key in found and current != key:
                    key = (crate, m.group(3) + "'")
                current, kind, indent = key, m.group(2), len(m.group(1))
                found[current] = [line.strip()]
                continue
            if current is None:
                continue
            body = line.strip()
            if re.search(r"abbrev|unfoldable|data|record", kind):
                found[current].append(body)
            elif not (body == "unfolding" or body.startswith("unfolding ") or body.split(" ")[0] == current[1]) and found[current][-1] is not None and len(line) - len(line.lstrip()) > indent and not found[current][-1].startswith("="):
                if body.startswith(("→", ":", "×")) or found[current][-1].endswith(("→", "×", ":")):
                    found[current].append(body)
    return {key: flat(lines) for key, lines in found.items()}


def show(title, old, new):
    gone, came = sorted(set(old) - set(new)), sorted(set(new) - set(old))
    changed = sorted(k for k in set(old) & set(new) if old[k] != new[k])
    print(f"\n### {title}: {len(changed)} changed, {len(gone)} gone, {len(came)} new\n")
    for k in changed:
        print(f"- **{k[0]}** `{' '.join(x for x in k[1:] if x)}`\n  - old: `{old[k]}`\n  - new: `{new[k]}`")
    if gone:
        print("\nGone:\n")
        for k in gone:
            print(f"- **{k[0]}** `{' '.join(x for x in k[1:] if x)}`: `{old[k]}`")
    if came:
        print("\nNew: " + "; ".join(f"{k[0]} `{' '.join(x for x in k[1:] if x)}`" for k in came) + ".")


def main():
    commit, only_pub = sys.argv[1], "--pub" in sys.argv
    rust, antt = r"crates/\w+/src/.*\.rt", r"crates/\w+/(specs|proofs)/.*\.antt"
    show("Functions and types", code(files(commit, rust), only_pub), code(files(None, rust), only_pub))
    show("Definitions and statements", logic(files(commit, antt)), logic(files(None, antt)))


main()
