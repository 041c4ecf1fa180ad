#!/usr/bin/env python3
"""Looks at the pages: links, tables that are made, the man page, and lines that users copy.

usage: tests/pages.py [PROGRAM]

What needs a command, a module or the built program is skipped where it isn't there. The last line is
`N passed, M failed, K skipped`.
"""
import os
import re
import shutil
import sys

from harness import TOP, Cases, call, has_program, program_of, scratch, written

CASES = Cases("pages")
REAL = "%%MatrixMarket matrix coordinate real general\n% comment\n\n2 2 2\n1 1 2.6e0\n2 2 -3.0\n"
ROUNDED = "%%MatrixMarket matrix coordinate integer general\n% comment\n\n2 2 2\n1 1 3\n2 2 -3\n"


def pages():
    """All Markdown files that belong to the repository."""
    for folder, folders, names in os.walk(TOP):
        folders[:] = [name for name in folders if name not in ("out", ".git", ".build")]
        for name in names:
            if name.endswith(".md"):
                yield os.path.join(folder, name)


def text_of(path):
    """The text of a file."""
    with open(path, encoding="utf-8") as file:
        return file.read()


def anchor(heading):
    """The name by which a heading is linked."""
    kept = re.sub(r"[^\w\- ]", "", heading.lower().replace("`", ""))
    return kept.strip().replace(" ", "-")


def without_code(text):
    """A page without its fenced blocks and code, in which nothing is a link."""
    return re.sub(r"`[^`\n]*`", "", re.sub(r"^```.*?^```", "", text, flags=re.S | re.M))


def links():
    for page in pages():
        wrong = []
        for target in re.findall(r"\]\(([^)\s]+)\)", without_code(text_of(page))):
            if re.match(r"[a-z]+:", target):
                continue
            path, _, part = target.partition("#")
            path = os.path.normpath(os.path.join(os.path.dirname(page), path)) if path else page
            if not os.path.exists(path):
                wrong.append(target)
            elif part and part not in map(anchor, re.findall(r"^#+ (.*)$", text_of(path), flags=re.M)):
                wrong.append(target)
        CASES.judge(f"links of {os.path.relpath(page, TOP)}", not wrong, ", ".join(wrong))


def source_of(crate):
    """The text of a crate's sources."""
    texts = []
    for folder, _, names in os.walk(os.path.join(TOP, "crates", crate, "src")):
        texts += [text_of(os.path.join(folder, name)) for name in names if name.endswith(".rt")]
    return "".join(texts)


def names():
    """Paths of calls and files of crates, as `crate::module::call` and `crates/NAME/..`."""
    crates = set(os.listdir(os.path.join(TOP, "crates")))
    for page in pages():
        text = text_of(page)
        wrong = []
        for path in re.findall(r"`([a-z_]+(?:::[A-Za-z_]+)+)`", text):
            crate, item = path.split("::")[0], path.split("::")[-1]
            if crate in crates and not re.search(rf"\b(fn|struct|enum|trait|mod)\s+{item}\b", source_of(crate)):
                wrong.append(path)
        for path in re.findall(r"\bcrates/[a-z_]+/[A-Za-z_./]*\w", text):
            if not os.path.exists(os.path.join(TOP, path)) and not path.split("/")[2] == "out":
                wrong.append(path)
        CASES.judge(f"names in {os.path.relpath(page, TOP)}", not wrong, ", ".join(wrong))


def made():
    for tool in ("map.py", "faults.py", "picture.py"):
        status, out, err = call([os.path.join(TOP, "tools", tool), "--check"])
        CASES.judge(f"{tool} --check", status == 0, out + err)
    readme = text_of(os.path.join(TOP, "README.md"))
    CASES.judge("README.md has at most 90 lines", readme.count("\n") <= 90, str(readme.count("\n")))
    loops = re.findall(r"^```\n(matrix .*?)^```", readme, flags=re.S | re.M)
    CASES.same("the loop of README.md", loops, [text_of(os.path.join(TOP, "examples/forward_divided/divided.loop"))])


def helped():
    """Each fault line of the table, with its cause, in the help of the launcher."""
    status, out, err = call([os.path.join(TOP, "wave"), "--help"])
    shown = " ".join(out.split())
    wrong = []
    for row in text_of(os.path.join(TOP, "docs/use/faults.tsv")).split("\n")[1:-1]:
        code, line, _, pattern, cause, _ = row.split("\t")
        if not pattern and f"{code} {line} {cause}" not in shown:
            wrong.append(line)
    CASES.judge("wave --help has the table of faults", status == 0 and not err and not wrong, ", ".join(wrong))


def manual():
    page = os.path.join(TOP, "docs/use/wave.1")
    for words in (["groff", "-ww", "-t", "-man", "-Tutf8", page], ["man", "--warnings", "-l", page]):
        if shutil.which(words[0]) is None:
            CASES.skip(words[0], "there is none")
            continue
        status, out, err = call(words, LC_ALL="C.UTF-8", MANPAGER="cat")
        CASES.judge(f"{words[0]} of wave.1", status == 0 and len(out) > 5000 and not err, err)


def code_of(page, head):
    """The first piece of code after a text on a page."""
    text = text_of(os.path.join(TOP, "docs/use", page))
    return re.search(re.escape(head) + r"[^`]*`([^`]+)`", text).group(1)


def shell_line(case, line, wanted, **files):
    """A line of the shell that writes b.mtx from a file."""
    with scratch() as folder:
        for name, text in files.items():
            written(folder, name.replace("_", "."), text)
        status, _, err = call(["sh", "-c", line], folder=folder)
        path = os.path.join(folder, "b.mtx")
        CASES.judge(f"{case}: ends", status == 0 and not err and os.path.exists(path), err)
        if os.path.exists(path):
            CASES.same(case, text_of(path), wanted)


def shell_lines():
    vector = "%%MatrixMarket matrix array real general\n2 1\n0.5\n1e3\n"
    real = code_of("FORMATS.md", "- **A file of field `real`**, matrix or vector, rounded: ")
    shell_line("awk for a matrix", real, ROUNDED, a_mtx=REAL)
    shell_line("awk for a vector", real, "%%MatrixMarket matrix array integer general\n2 1\n0\n1000\n", a_mtx=vector)
    scaled = real.replace('sprintf("%.0f",$NF)', 'sprintf("%.0f",$NF*1000)')
    shell_line("awk that scales", scaled, "%%MatrixMarket matrix array integer general\n2 1\n500\n1000000\n", a_mtx=vector)
    unsigned = code_of("FORMATS.md", "- **A file of field `unsigned-integer`**, with values below 2^63: ")
    shell_line("sed for unsigned", unsigned, ROUNDED, a_mtx=ROUNDED.replace("integer", "unsigned-integer"))
    listed = code_of("FORMATS.md", "- **A list of numbers**, one a line: ")
    shell_line("awk for a list", listed, "%%MatrixMarket matrix array integer general\n3 1\n5\n-6\n7\n", list="5\n-6\n7\n")
    mark = code_of("FORMATS.md", "- **A byte order mark** or UTF-16: ")
    shell_line("tail for a byte order mark", mark, ROUNDED, a_mtx=b"\xef\xbb\xbf" + ROUNDED.encode())
    wide = re.search(r"`(iconv[^`]*)`", text_of(os.path.join(TOP, "docs/use/FORMATS.md"))).group(1)
    if shutil.which("iconv"):
        shell_line("iconv for UTF-16", wide, ROUNDED, a_mtx=ROUNDED.encode("utf-16"))
    else:
        CASES.skip("iconv", "there is none", 2)


def r_lines():
    if shutil.which("Rscript") is None or call(["Rscript", "-e", "library(Matrix)"])[0] != 0:
        CASES.skip("R", "there is none, or none with Matrix", 2)
        return
    matrix = code_of("FORMATS.md", "- **R**: ")
    vector = code_of("FORMATS.md", "- **R vector**: ")
    made_by = "a <- Matrix::forceSymmetric(Matrix::sparseMatrix(i=c(1,2,2), j=c(1,1,2), x=c(2,-1,3)), 'L'); b <- c(1, -2, 3e10); "
    with scratch() as folder:
        status, _, err = call(["Rscript", "-e", made_by + matrix + "; " + vector], folder=folder)
        if status != 0:
            CASES.judge("R", False, err)
            return
        head = "%%MatrixMarket matrix coordinate integer general\n2 2 4\n"
        CASES.same("R of a symmetric matrix", text_of(os.path.join(folder, "a.mtx")), head + "1 1 2\n2 1 -1\n1 2 -1\n2 2 3\n")
        head = "%%MatrixMarket matrix array integer general\n3 1\n"
        CASES.same("R of a vector", text_of(os.path.join(folder, "b.mtx")), head + "1\n-2\n30000000000\n")


def octave_line():
    if shutil.which("octave") is None:
        CASES.skip("Octave", "there is none")
        return
    line = code_of("FORMATS.md", "- **Octave, MATLAB**: ")
    with scratch() as folder:
        script = written(folder, "write.m", "a=sparse([1 2 2],[1 1 2],[2 -1 3]);\n" + line + "\n")
        status, _, err = call(["octave", "--no-gui", "-q", script], folder=folder)
        path = os.path.join(folder, "a.mtx")
        got = text_of(path) if status == 0 and os.path.exists(path) else err
        CASES.same("Octave", got, "%%MatrixMarket matrix coordinate integer general\n2 2 3\n1 1 2\n2 1 -1\n2 2 3\n")


def python_block(program):
    """The block of README.md, with the built program."""
    if not has_program(program):
        CASES.skip("SciPy in README.md", f"there is no program at {program}")
        return
    if call([sys.executable, "-c", "import scipy.sparse"])[0] != 0:
        CASES.skip("SciPy in README.md", "there is no SciPy")
        return
    block = re.search(r"^```python\n(.*?)^```", text_of(os.path.join(TOP, "README.md")), flags=re.S | re.M).group(1)
    status, out, err = call([sys.executable, "-c", block], folder=TOP, WAVE_PROGRAM=program)
    CASES.judge("SciPy in README.md", status == 0 and out == "[1 2 3 4]\n", out + err)


def scipy_lines():
    """The lines of FORMATS.md for SciPy."""
    if call([sys.executable, "-c", "import scipy.io, scipy.sparse"])[0] != 0:
        CASES.skip("SciPy in FORMATS.md", "there is no SciPy", 2)
        return
    lines = [code_of("FORMATS.md", head) for head in ("- **SciPy**: ", "- **NumPy vector**: ")]
    block = "\n".join(["import scipy.io, scipy.sparse, numpy", "a = [[2, 0], [-1, 3]]", "b = numpy.array([5, 6])", *lines])
    with scratch() as folder:
        status, _, err = call([sys.executable, "-c", block], folder=folder)
        CASES.judge("SciPy in FORMATS.md", status == 0, err)
        kept = [line for line in text_of(os.path.join(folder, "b.mtx")).split("\n") if not line.startswith("%\n")] if status == 0 else []
        CASES.judge("NumPy vector in FORMATS.md", kept[:1] == ["%%MatrixMarket matrix array integer general"] and kept[-4:] == ["2 1", "5", "6", ""], str(kept))


def main():
    program = program_of(sys.argv)
    links()
    names()
    made()
    helped()
    manual()
    shell_lines()
    scipy_lines()
    r_lines()
    octave_line()
    python_block(program)
    return CASES.end()


if __name__ == "__main__":
    sys.exit(main())
