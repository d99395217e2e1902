"""Installs the libraries into an empty folder, and uses them as a stranger would: the header, pkg-config and that folder alone.
usage: installed.py FOLDER      the folder is there, and nothing is in it

The examples are compiled as C and as C++, with the shared library and with the static one, and what they print is compared with the reference's.
"""
import os
import pathlib
import re
import subprocess
import sys

ROOT = pathlib.Path(__file__).resolve().parent.parent.parent
SAMPLES = ROOT / "samples"
REFERENCE = pathlib.Path(os.environ.get("REFERENCE", ROOT / "reference/target/release/reference"))
PREFIX = "/opt/hernganow"
STRICT = ["-Wall", "-Wextra", "-Wpedantic", "-Werror", "-O2"]
SANITIZED = ["-g", "-fsanitize=address,undefined", "-fno-sanitize-recover=all"]
LANGUAGES = {"C": ["cc", "-std=c99"], "C++": ["c++", "-std=c++17", "-x", "c++"]}
# Byte 22 of an RSR record's secondary block, Px/No, and the three of worked example P6.
EXPECTED_AT, P6 = 32 + 22, {128: -128, 255: -1, 127: 127}
STATION = 43


class Wrong(Exception):
    """Something is not as it has to be."""


def expect(is_so, words):
    if not is_so:
        raise Wrong(words)


def run(*words, **more):
    done = subprocess.run([str(word) for word in words], capture_output=True, text=True, cwd=ROOT, **more)
    if done.returncode:
        raise Wrong(f"{' '.join(map(str, words))}: status {done.returncode}: {done.stdout}{done.stderr}")
    return done.stdout


def make(target, folder, *more):
    # A make above this one says nothing to it.
    env = {name: value for name, value in os.environ.items() if name not in ("MAKEFLAGS", "MFLAGS", "MAKELEVEL")}
    return run("make", "-s", target, f"DESTDIR={folder}", f"PREFIX={PREFIX}", *more, env=env)


class Installed:
    def __init__(self, folder):
        self.folder = pathlib.Path(folder)
        self.root = self.folder / "root"
        self.work = self.folder / "work"
        self.work.mkdir()
        self.lib = pathlib.Path(str(self.root) + PREFIX) / "lib"
        self.header = (pathlib.Path(str(self.root) + PREFIX) / "include/hernganow.h").read_text
        self.env = dict(os.environ, PKG_CONFIG_LIBDIR=str(self.lib / "pkgconfig"), PKG_CONFIG_SYSROOT_DIR=str(self.root), LD_LIBRARY_PATH=str(self.lib))

    def package(self, *words):
        return run("pkg-config", *words, "hernganow", env=self.env).split()

    def compile(self, name, source, language, kind, more=()):
        program = self.work / f"{name}-{language}-{kind}"
        how = ["-static"] if kind == "static" else []
        run(*LANGUAGES[language], *STRICT, *more, "-o", program, source, "-x", "none", *how, *self.package("--cflags", "--libs"))
        return program

    def use(self, program, *words):
        return run(program, *words, env=self.env)

    def files(self):
        return sorted(str(path.relative_to(self.root)) for path in self.root.rglob("*") if not path.is_dir())


def try_files(here, ledger):
    """All that is installed, and nothing else."""
    base = PREFIX.lstrip("/")
    wanted = ["include/hernganow.h", "lib/libhernganow.a", "lib/libhernganow.so", "lib/libhernganow.so.1", "lib/pkgconfig/hernganow.pc"]
    wanted += ["bin/hernganow-ledger"] if ledger else []
    expect(here.files() == sorted(f"{base}/{name}" for name in wanted), f"installed are {here.files()}")


def try_symbols(here):
    """The libraries show the calls of the header, and no other name."""
    declared = set(re.findall(r"\b(hernganow_\w+)\(", re.sub(r"/\*.*?\*/|static inline [^}]*}", "", here.header(), flags=re.S)))
    shown = run("nm", "-D", "--defined-only", "--format=posix", here.lib / "libhernganow.so.1")
    names = {line.split()[0].split("@")[0] for line in shown.splitlines()} - {"HERNGANOW_1"}
    expect(names == declared, f"the shared library and the header differ in {names ^ declared}")
    shown = run("nm", "-g", "--defined-only", "--format=posix", here.lib / "libhernganow.a")
    names = {line.split()[0] for line in shown.splitlines() if len(line.split()) > 1}
    expect(names == declared, f"the static library and the header differ in {names ^ declared}")
    needed = {line.split()[0].split("@")[0] for line in run("nm", "-D", "--undefined-only", "--format=posix", here.lib / "libhernganow.so.1").splitlines()}
    allowed = {"memcpy", "memset", "memmove", "memcmp", "bcmp", "__cxa_finalize", "__gmon_start__", "_ITM_deregisterTMCloneTable", "_ITM_registerTMCloneTable"}
    expect(needed <= allowed, f"the shared library needs {needed - allowed}")
    return len(declared)


def try_shared(here):
    """Its soname, stripped, no stack that can be run, no text that is changed when it is loaded."""
    library = here.lib / "libhernganow.so.1"
    about = run("readelf", "-d", "-l", "-W", "-S", library)
    expect("Library soname: [libhernganow.so.1]" in about, "the soname")
    expect(".symtab" not in about, "it is not stripped")
    expect("TEXTREL" not in about, "text that is changed when it is loaded")
    expect(re.search(r"GNU_STACK.* RW ", about), "a stack that can be run")


def try_version(here):
    source = here.work / "version.c"
    source.write_text('#include <hernganow.h>\n#include <stdio.h>\nint main(void)\n{\n    printf("%s %s %d\\n", HERNGANOW_VERSION, hernganow_version(), '
                      "HERNGANOW_VERSION_NUMBER);\n    return 0;\n}\n")
    said, library, number = here.use(here.compile("version", source, "C", "shared")).split()
    major, minor, patch = map(int, said.split("."))
    expect(said == library == here.package("--modversion")[0], f"versions {said} and {library}")
    expect(int(number) == major * 1_000_000 + minor * 1_000 + patch and major == 1, f"version {said} and number {number}")


def listing(stream):
    """The reference's listing without the record numbers."""
    lines = run(REFERENCE, "list", stream).splitlines()
    return "".join(" ".join(line.split()[:3]) + "\n" for line in lines[1:])


def try_examples(here, language, kind, more=()):
    programs = {name: here.compile(name, ROOT / f"host/examples/{name}.c", language, kind, more) for name in ("walk", "tick", "samples")}
    night, tone, sheet = SAMPLES / "good-night", SAMPLES / "rsr/tone", here.work / "sheet"
    expect(here.use(programs["walk"], night) == listing(night), f"walk, {language}, {kind}")
    expect(here.use(programs["samples"], tone) == run(REFERENCE, "samples", tone), f"samples, {language}, {kind}")
    rows = [line.split() for line in here.use(programs["tick"], night, sheet).splitlines()]
    told = run(REFERENCE, "season", sheet).splitlines()[1].split()[1:4]
    expect(len(rows) == 5 and told == [str(n) for n in (5, sum(int(r[1]) for r in rows), sum(int(r[2]) for r in rows))], f"tick, {language}, {kind}: {rows}, {told}")
    stopped = subprocess.run([programs["walk"], SAMPLES / "refusal-05"], capture_output=True, text=True, env=here.env)
    expect(stopped.returncode == 1 and stopped.stdout == listing(SAMPLES / "refusal-05"), f"walk of a stream that stops, {language}, {kind}")


def try_cpp(here, kind, more=()):
    """The program in C++, on records with the three bytes of worked example P6."""
    program = here.compile("expected", ROOT / "host/examples/expected.cpp", "C++", kind, more)
    record = bytearray((SAMPLES / "rsr/tone").read_bytes()[:2260])
    stream = here.work / "p6"
    with open(stream, "wb") as file:
        for byte in P6:
            record[EXPECTED_AT] = byte
            file.write(record)
    wanted = "".join(f"{number} {STATION}\n" for number in P6.values())
    expect(here.use(program, stream) == wanted, f"expected, {kind}")


def try_texts(here):
    """Each refusal of the header has a text of its own, and all other numbers share one."""
    refusals = {int(number) for number in re.findall(r"HERNGANOW_REFUSED_\w+ = (\d+)", here.header())}
    lines = here.use(here.compile("texts", ROOT / "host/tests/texts.c", "C", "shared")).splitlines()
    texts = {int(number): text for number, text in (line.split(" ", 1) for line in lines)}
    own = {texts[number] for number in refusals}
    others = {text for number, text in texts.items() if number not in refusals | {0}}
    expect(len(own) == len(refusals) and len(others) == 1 and not own & others, f"the texts of refusals: {others}")


def try_slices(here):
    """Every slice of every call, null and of many lengths; and the stack that the calls need."""
    source = here.work / "slices.c"
    header = pathlib.Path(str(here.root) + PREFIX) / "include/hernganow.h"
    source.write_text(run(sys.executable, ROOT / "host/tests/slices.py", header))
    settings, empty = here.work / "settings", here.work / "zeros"
    settings.write_bytes(b"".join(n.to_bytes(4, "big") for n in (784, 0, 64, 16)) + bytes(768))
    empty.write_bytes(bytes(4096))
    contents = [SAMPLES / "good-night", SAMPLES / "rsr/tone", SAMPLES / "sheets/new-night", SAMPLES / "sheets/old-night", settings, SAMPLES / "tapes/good-tape", empty]
    program = here.compile("slices", source, "C", "shared", ["-pthread"])
    return here.use(program, *contents).strip()


def main():
    if len(sys.argv) != 2:
        sys.exit(__doc__)
    folder = pathlib.Path(sys.argv[1])
    try:
        make("install", folder / "root")
        here = Installed(folder)
        try_files(here, True)
        calls = try_symbols(here)
        try_shared(here)
        try_version(here)
        for language in LANGUAGES:
            for kind in ("shared", "static"):
                try_examples(here, language, kind)
        try_examples(here, "C", "shared", SANITIZED)
        for kind in ("shared", "static"):
            try_cpp(here, kind)
        try_cpp(here, "shared", SANITIZED)
        if "hernganow_refusal_text" in here.header():
            try_texts(here)
        said = try_slices(here)
        usage = run(str(here.root) + PREFIX + "/bin/hernganow-ledger", "--help", env=here.env)
        expect(usage.startswith("usage: "), "the installed ledger program")
        sizes = ", ".join(f"{name} {(here.lib / name).stat().st_size} bytes" for name in ("libhernganow.a", "libhernganow.so.1"))
        make("uninstall", folder / "root")
        expect(here.files() == [], f"uninstall leaves {here.files()}")
        make("install", folder / "root", "LEDGER=no")
        try_files(here, False)
    except Wrong as wrong:
        sys.exit(f"installed: WRONG: {wrong}")
    print(f"installed: {calls} calls, {sizes}; the examples as C and C++, shared and static, print what the reference does; {said}")


main()
