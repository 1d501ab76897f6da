#!/usr/bin/env python3
"""The header, what make install installs, the manual pages, the examples, and how make proves: what make test-install runs, after make all.

Nothing below build/, target/ or crates/ is written, so that other tests can run at the same time.
Prints a line for each test, and exits with 1 if one failed.
"""

import os
import re
import shutil
import subprocess
from pathlib import Path

import harness
import key_locker
from harness import HEADER, PROGRAM, ROOT, STRICT, command, must, need

LIBRARY = ROOT / "build/libkeylocker.a"
RUN = ROOT / "build/keylocker-run"
RUNS = RUN.exists()  # it is for Linux on x86-64
VERSION = re.search('KEYLOCKER_VERSION "(.*)"', HEADER.read_text())[1]
FIPS_197_C1 = "69c4e0d86a7b0430d8cdb78070b4c55a"
PROBED_HANDLE = key_locker.wrap(b"\x5a" * 16, b"\x5a" * 32, bytes(16), b"\x2b" * 16).hex()
# The programs in C, and what they print.
EXAMPLES = {
    "seal.c": f"{FIPS_197_C1}\n",
    "probe.c": f"Key Locker, not enabled\nKey Locker, enabled; wide forms: yes\n{PROBED_HANDLE}\n",
    "large_guest.c": f"{FIPS_197_C1}, RIP 7 bytes on\n",
}
# NIST SP 800-38A, F.2.1
CBC_AES128 = ["7649abac8119b246cee98e9b12e9197d", "5086cb9b507219ee95db113a917678b2", "73bed6b8e3c1743b7116e69e22229516", "3ff1caa1681fac09120eca307586e1a7"]
# What the make that runs these tests was given is not for those that they run.
ENVIRONMENT = {name: value for name, value in os.environ.items() if name not in ["MAKEFLAGS", "MFLAGS", "MAKELEVEL"]}


def make(*args, at=ROOT, **options):
    return command("make", "-C", at, *args, **({"env": ENVIRONMENT} | options))


# ---- the header


def test_header(tmp):
    """Alone, in C and in C++; and its numbers are the scope's."""
    (tmp / "numbers.c").write_text(
        "#include <keylocker.h>\n"
        + "".join(f"_Static_assert({name} == {number}, \"{name}\");\n" for name, number in NUMBERS.items())
        + "int main(void) { return 0; }\n"
    )
    must(command("gcc", "-std=c11", *STRICT, f"-I{ROOT}/include", "-c", tmp / "numbers.c", "-o", tmp / "numbers.o"), 0, "numbers")
    for standard in ["c89", "c99", "c11"]:
        must(command("gcc", f"-std={standard}", *STRICT, "-fsyntax-only", "-x", "c", HEADER), 0, f"header as {standard}")
    if shutil.which("g++") is None:
        return "passed in C; no g++ here"
    for standard in ["c++98", "c++17"]:
        must(command("g++", f"-std={standard}", *STRICT, "-fsyntax-only", "-x", "c++", HEADER), 0, f"header as {standard}")
    for example, printed in EXAMPLES.items():
        source = ["-x", "c++", ROOT / "examples" / example, "-x", "none"]
        must(command("g++", "-std=c++17", *STRICT, f"-I{ROOT}/include", *source, LIBRARY, "-o", tmp / "cxx"), 0, f"{example} as C++17")
        need(must(command(tmp / "cxx"), 0, example).stdout == printed, example, "in C++ prints something else")


NUMBERS = {
    "KEYLOCKER_MACHINE_SIZE": 924,
    "KEYLOCKER_CPU_SIZE": 408,
    "KEYLOCKER_CPU_REGISTERS": 256,
    "KEYLOCKER_CPU_RIP": 384,
    "KEYLOCKER_CPU_RFLAGS": 392,
    "KEYLOCKER_CPU_CPL": 400,
    "KEYLOCKER_CPU_CONTROL": 401,
    "KEYLOCKER_CPU_ZEROS": 402,
    "KEYLOCKER_ENTRY_SIZE": 16 + 32 + 3,
    "KEYLOCKER_SLOT_SIZE": 1 + 16 + 32 + 2,
    "KEYLOCKER_MACHINE_BACKUP": 2 + 16 * 51,
    "KEYLOCKER_MACHINE_STORE": 2 + 17 * 51,
    "KEYLOCKER_MACHINE_CONSUMED": 923,
    "KEYLOCKER_FEATURE_ALL": 0x3F,
    "KEYLOCKER_PF": 14,
    "KEYLOCKER_BAD_KEYRING": 15,
    "KEYLOCKER_NO_LABEL": 16,
    "KEYLOCKER_KEYRING_FULL": 17,
    "KEYLOCKER_BAD_SIZE": 18,
    "KEYLOCKER_COUNTER_SIZE": 16,
    "KEYLOCKER_BUFFER_LIMIT": 65_536,
    "KEYLOCKER_KEYRING_LIMIT": 819 * 80,
    "KEYLOCKER_KEYRING_RECORD": 80,
    "KEYLOCKER_KEYRING_HEADS": 16,
    "KEYLOCKER_LABEL_SIZE": 12,
    "KEYLOCKER_RECORD_NEXT": 0,
    "KEYLOCKER_RECORD_KIND": 2,
    "KEYLOCKER_RECORD_ZERO": 3,
    "KEYLOCKER_RECORD_LABEL": 4,
    "KEYLOCKER_RECORD_HANDLE": 16,
    "KEYLOCKER_KIND_128": 0,
    "KEYLOCKER_KIND_256": 1,
    "KEYLOCKER_MEMORY_LIMIT": 1_048_576,
    "KEYLOCKER_RFLAGS_OF": 1 << 11,
    "KEYLOCKER_BACKUP_CONSUMED": 1 << 3,
    # 343965-001US, chapter 2
    "KEYLOCKER_CPUID_7_ECX_KL": 1 << 23,
    "KEYLOCKER_CPUID_19_EAX_CPL0_ONLY": 1 << 0,
    "KEYLOCKER_CPUID_19_EAX_NO_ENCRYPT": 1 << 1,
    "KEYLOCKER_CPUID_19_EAX_NO_DECRYPT": 1 << 2,
    "KEYLOCKER_CPUID_19_EBX_AESKLE": 1 << 0,
    "KEYLOCKER_CPUID_19_EBX_WIDE_KL": 1 << 2,
    "KEYLOCKER_CPUID_19_EBX_BACKUP": 1 << 4,
    "KEYLOCKER_CPUID_19_ECX_NO_BACKUP": 1 << 0,
    "KEYLOCKER_CPUID_19_ECX_RANDOM": 1 << 1,
}


def test_inline(tmp):
    """The functions that the header has for hosts, in C and in C++, and a text of its own for each answer."""
    compilers = [["gcc", "-std=c11", "-O0"], ["gcc", "-std=gnu11", "-O2"]] + [["g++", "-std=c++17", "-x", "c++"]] * bool(shutil.which("g++"))
    for compiler in compilers:
        must(command(*compiler, *STRICT, f"-I{ROOT}/include", ROOT / "tests/inline.c", "-o", tmp / "inline"), 0, compiler)
        texts = must(command(tmp / "inline"), 0, compiler).stdout.splitlines()
        need(len(set(texts)) == len(texts) == 20 and texts[0] == "done" and texts[19] == "no answer of this library", texts)
        need([text[:3] for text in texts[10:15]] == ["#UD", "#NM", "#GP", "#SS", "#PF"], texts[10:15])


def test_large_guest(tmp):
    """The function in the header's comment is that of the example."""
    shown = re.search(r" \*     static uint32_t use_copy.*? \*     \}\n", HEADER.read_text(), re.S)[0]
    need("".join(f"{line[7:]}\n" for line in shown.splitlines()) in (ROOT / "examples/large_guest.c").read_text(), "the example has another function")


# ---- what is installed

PREFIX = "/opt/kl"
FOLDERS = {
    "LIBDIR": "/opt/kl/lib",
    "INCLUDEDIR": "/opt/kl/include",
    "BINDIR": "/opt/kl/bin",
    "MANDIR": "/opt/kl/share/man",
    "DOCDIR": "/opt/kl/share/doc/keylocker",
}
OTHER_FOLDERS = {
    "LIBDIR": "/opt/kl/lib/x86_64-linux-gnu",
    "INCLUDEDIR": "/usr/include/kl",
    "BINDIR": "/opt/kl/libexec",
    "MANDIR": "/usr/share/man",
    "DOCDIR": "/opt/kl/our documents",
}
INSTALLED = {
    "LIBDIR": [
        "libkeylocker.a",
        *["keylocker/keylocker-run", "keylocker/keylocker-run.so"] * RUNS,
        "pkgconfig/keylocker.pc",
        "cmake/keylocker/keylocker-config.cmake",
        "cmake/keylocker/keylocker-config-version.cmake",
    ],
    "INCLUDEDIR": ["keylocker.h"],
    "BINDIR": ["keylocker-simulator", *["keylocker-run"] * RUNS],
    "MANDIR": ["man1/keylocker-simulator.1", "man5/keylocker-traces.5", *["man1/keylocker-run.1"] * RUNS],
    "DOCDIR": ["TRACES.md", "THREATS.md", "examples/seal.c", "examples/probe.c", "examples/large_guest.c", "examples/intrinsics.c", "examples/coprocess.py"],
}


def install(stage, folders={}, goal="install", prefix=PREFIX):
    """What was built is installed as it is: whether to prove it again is not asked. Gives the prefix's place in the stage."""
    words = [f"{name}={value}" for name, value in {"LIBKEYLOCKER": LIBRARY, "DESTDIR": stage, "PREFIX": prefix, **folders}.items()]
    must(make(goal, *words), 0, f"make {goal}")
    return Path(f"{stage}{prefix}")


def found(stage):
    return {f"/{file.relative_to(stage)}": oct(file.stat().st_mode & 0o777) for file in stage.rglob("*") if file.is_file()}


def wanted(folders):
    programs = ["keylocker-simulator", "keylocker-run"]
    return {f"{folders[name]}/{file}": oct(0o755 if Path(file).name in programs else 0o644) for name, files in INSTALLED.items() for file in files}


def flags_of(pc, prefix):
    """The flags for compiling and linking, as if installed where prefix is."""
    if shutil.which("pkg-config"):
        environment = os.environ | {"PKG_CONFIG_PATH": str(pc.parent), "PKG_CONFIG_LIBDIR": ""}
        flags = command("pkg-config", f"--define-variable=prefix={prefix}", "--cflags", "--libs", "keylocker", env=environment)
        return must(flags, 0, "pkg-config").stdout.split()
    text = pc.read_text()
    values = dict(re.findall(r"^(\w+)=(.*)$", text, re.M)) | {"prefix": str(prefix)}
    flags = " ".join(re.findall(r"^(?:Cflags|Libs): (.*)$", text, re.M))
    while "${" in flags:
        flags = re.sub(r"\$\{(\w+)\}", lambda found: values[found[1]], flags)
    return sorted(flags.split(), key=lambda flag: flag.startswith("-l"))


def test_install(tmp):
    """The installed files, with the examples compiled by the flags of the installed .pc file."""
    prefix = install(tmp / "stage")
    need(found(tmp / "stage") == wanted(FOLDERS), found(tmp / "stage"))
    pc = prefix / "lib/pkgconfig/keylocker.pc"
    for line in ["prefix=/opt/kl", "libdir=${prefix}/lib", "includedir=${prefix}/include", f"Version: {VERSION}"]:
        need(f"{line}\n" in pc.read_text(), "no", line, "in", pc.read_text())
    flags = flags_of(pc, prefix)
    for example, printed in EXAMPLES.items():
        source = prefix / "share/doc/keylocker/examples" / example
        must(command("gcc", "-std=c11", *STRICT, source, "-o", "example", *flags, cwd=tmp), 0, flags)
        need(must(command(tmp / "example"), 0, example).stdout == printed, example, "prints something else")
    need(must(command(prefix / "bin/keylocker-simulator"), 0, "installed simulator").stdout == command(PROGRAM).stdout, "installed simulator")
    need_object(prefix / "bin", prefix / "lib")


def need_object(bin, lib):
    """An installed keylocker-run finds the object that was installed with it."""
    if RUNS:
        printed = must(command(bin / "keylocker-run", "printenv", "LD_PRELOAD"), 0, "installed keylocker-run").stdout
        need(printed == f"{lib}/keylocker/keylocker-run.so\n", printed)


def test_other_folders(tmp):
    prefix = install(tmp / "stage", OTHER_FOLDERS)
    need(found(tmp / "stage") == wanted(OTHER_FOLDERS), found(tmp / "stage"))
    need_object(prefix / "libexec", prefix / "lib/x86_64-linux-gnu")
    pc = (prefix / "lib/x86_64-linux-gnu/pkgconfig/keylocker.pc").read_text()
    need("\nlibdir=${prefix}/lib/x86_64-linux-gnu\nincludedir=/usr/include/kl\n" in pc, pc)


def test_bad_folders(tmp):
    """What a .pc file could not tell is refused before anything is installed."""
    for name in ["a b", "a&b", "a|b", "a\\b"]:
        result = make("install", f"LIBKEYLOCKER={LIBRARY}", f"DESTDIR={tmp}/stage", f"PREFIX=/{name}")
        need(result.returncode == 2 and "make install: no blanks" in result.stderr and not (tmp / "stage").exists(), name, result.stderr)


def test_uninstall(tmp):
    """Nothing stays but what others put there."""
    for folders in [FOLDERS, OTHER_FOLDERS]:
        stage = tmp / folders["DOCDIR"].replace("/", "-")
        install(stage, folders)
        other = Path(f"{stage}{folders['DOCDIR']}/other")
        other.write_text("")
        install(stage, folders, "uninstall")
        need([*found(stage)] == [f"{folders['DOCDIR']}/other"], found(stage))
        other.unlink()
        install(stage, folders, "uninstall")
        need([*stage.rglob("*keylocker*")] == [] and not other.parent.exists(), "folders that stay:", *stage.rglob("*"))


# ---- CMake

PROJECT = """
cmake_minimum_required(VERSION 3.13)
project(sealing C)
find_package(keylocker 1.6 REQUIRED CONFIG)
add_executable(seal seal.c)
target_link_libraries(seal PRIVATE keylocker::keylocker)
"""

ASKING = """
cmake_minimum_required(VERSION 3.13)
project(asking NONE)
foreach(version ${VERSIONS})
  find_package(keylocker ${version} CONFIG QUIET)
  message(STATUS "${version}: ${keylocker_FOUND}")
  unset(keylocker_FOUND)
  unset(keylocker_DIR CACHE)
endforeach()
"""

PLACES = """
cmake_minimum_required(VERSION 3.13)
project(places NONE)
find_package(keylocker REQUIRED CONFIG)
get_target_property(include keylocker::keylocker INTERFACE_INCLUDE_DIRECTORIES)
get_target_property(library keylocker::keylocker IMPORTED_LOCATION)
message(STATUS "places: ${include}: ${library}")
"""


def configured(folder, text, *words):
    folder.mkdir()
    (folder / "CMakeLists.txt").write_text(text)
    return must(command("cmake", "-S", folder, "-B", folder / "build", *words), 0, "cmake").stdout


def test_cmake(tmp):
    """A project that finds the package and builds the README's program."""
    if shutil.which("cmake") is None:
        return "no cmake here"
    prefix = install(tmp / "stage")
    configured(tmp / "project", PROJECT.replace("seal.c", f"{prefix}/share/doc/keylocker/examples/seal.c"), f"-DCMAKE_PREFIX_PATH={prefix}")
    must(command("cmake", "--build", tmp / "project/build"), 0, "cmake --build")
    need(must(command(tmp / "project/build/seal"), 0, "seal").stdout == EXAMPLES["seal.c"], "seal prints something else")


def test_cmake_versions(tmp):
    """Who asks for this version, or an older one with the same first number, gets it, and nobody else."""
    if shutil.which("cmake") is None:
        return "no cmake here"
    major, minor, patch = map(int, VERSION.split("."))
    served = [f"{major}", f"{major}.0", f"{major}.{minor}", VERSION]
    refused = [f"{major}.{minor}.{patch + 1}", f"{major}.{minor + 1}", f"{major + 1}", f"{major + 1}.0", f"{major - 1}.9"]
    if tuple(map(int, re.findall(r"\d+", command("cmake", "--version").stdout)[:2])) >= (3, 19):  # from there on it knows ranges
        served += [f"{major}.0...{VERSION}", f"{major}.0...<{major + 1}"]
        refused += [f"{major}.0...<{VERSION}"]
    prefix = install(tmp / "stage")
    printed = configured(tmp / "asking", ASKING, f"-DCMAKE_PREFIX_PATH={prefix}", f"-DVERSIONS={';'.join(served + refused)}")
    for versions, answer in [(served, "1"), (refused, "0")]:
        for version in versions:
            need(f"-- {version}: {answer}\n" in printed, version, "is not answered by", answer, "in", printed)


def test_cmake_places(tmp):
    """Library and header are found where folders are others, below a stage, and by way of a link."""
    if shutil.which("cmake") is None:
        return "no cmake here"
    install(tmp / "stage", OTHER_FOLDERS)
    install("", prefix=tmp / "real")
    (tmp / "way").symlink_to(tmp / "real/lib")
    for lib, include in [
        (tmp / "stage/opt/kl/lib/x86_64-linux-gnu", tmp / "stage/usr/include/kl"),
        (tmp / "real/lib", tmp / "real/include"),
        (tmp / "way", tmp / "real/include"),
    ]:
        printed = configured(tmp / f"in-{lib.name}", PLACES, f"-Dkeylocker_DIR={lib}/cmake/keylocker")
        need(f"-- places: {include}: {lib}/libkeylocker.a\n" in printed, "not", include, "in", printed)


# ---- manual pages


def rendered(page, device):
    """As on a terminal of 200 columns, without bold; and the warnings."""
    return must(command("groff", "-man", "-ww", f"-T{device}", "-rLL=200n", "-P-cbou", page), 0, f"groff {page}")


def flat(text):
    return " ".join(text.split())


def test_manual(tmp):
    """Without a warning, and with all that the help and the description of the language say."""
    if shutil.which("groff") is None:
        return "no groff here"
    pages = [install(tmp / "stage") / "share/man" / page for page in INSTALLED["MANDIR"]]
    warnings = [rendered(page, "utf8").stderr for page in pages]
    need(warnings == [""] * len(pages), "warnings:", *warnings)
    simulator, traces, *run = [rendered(page, "ascii").stdout for page in pages]

    for program, page in [(PROGRAM, simulator), *[(RUN, *run)] * RUNS]:
        usage, *parts = command(program, "--help").stdout.replace("simulator/TRACES.md", "keylocker-traces(5)").split("\n\n")
        for part in [*usage.removeprefix("usage: ").splitlines(), *parts]:
            here = part.startswith("Here: ")  # is of the machine that it was printed on
            need((flat(part.removeprefix("Exit status: ")) in flat(page)) != here, "the page of", program, "and", part)

    language = (ROOT / "simulator/TRACES.md").read_text()
    for line in [line for block in re.findall(r"^```\w*\n(.*?)^```$", language, re.S | re.M) for line in block.splitlines()]:
        need(f" {line.rstrip()}\n" in traces, "keylocker-traces.5 does not have the line", line)
    for tag in re.findall(r"^\| `(.*?)`", language, re.M):
        need(f"       {tag}" in traces, "keylocker-traces.5 does not have the statement", tag)
    need(not re.search(r"`|\*\*\w|\]\(", traces), "Markdown in keylocker-traces.5:", re.findall(r".*(?:`|\*\*\w|\]\().*", traces))


# ---- examples


def test_coprocess(tmp):
    """The program in Python beside the installed simulator, given and of the PATH."""
    prefix = install(tmp / "stage")
    example, program = prefix / "share/doc/keylocker/examples/coprocess.py", prefix / "bin/keylocker-simulator"
    path = {"PATH": f"{program.parent}:{ENVIRONMENT['PATH']}"}
    for result in [command("python3", example, program), command("python3", example, env=ENVIRONMENT | path)]:
        need(must(result, 0, "coprocess.py").stdout.splitlines() == [*CBC_AES128, "7 calls, 0 of them refused"], result.stdout)
    need("the simulator has ended" in must(command("python3", example, "false"), 1, "coprocess.py").stderr, "the end of the simulator is not told")


def test_readme(tmp):
    """The program in C that README shows is examples/seal.c."""
    shown = re.findall(r"```c\n(.*?)```", (ROOT / "README.md").read_text(), re.S)
    need(shown == [(ROOT / "examples/seal.c").read_text()], "README does not show examples/seal.c, or another program")


# ---- proving


def copied(tmp):
    """The repository, with nothing built."""
    return shutil.copytree(ROOT, tmp / "copy", ignore=shutil.ignore_patterns(".git", "target", "build", "out", "__pycache__"))


def path_without_rt(tmp):
    """A folder that has rt is replaced by one with links to the rest of it."""
    folders = [Path(folder) for folder in ENVIRONMENT["PATH"].split(os.pathsep)]
    for i, folder in enumerate(folders):
        if (folder / "rt").exists():
            folders[i] = tmp / f"path-{i}"
            folders[i].mkdir()
            for file in folder.iterdir():
                if file.name != "rt":
                    (folders[i] / file.name).symlink_to(file)
    return os.pathsep.join(map(str, folders))


def test_without_kit(tmp):
    """What is missing is told, and a library from elsewhere is enough."""
    copy, env = copied(tmp), ENVIRONMENT | {"PATH": path_without_rt(tmp)}
    said = must(make(at=copy, env=env), 2, "make without rt").stderr
    need("rt, the command of the Rattle kit, is not on the PATH" in said and "README.md, section Use" in said, said)
    must(make("-j2", "install", f"LIBKEYLOCKER={LIBRARY}", f"DESTDIR={tmp}/stage", at=copy, env=env), 0, "make install without rt")
    need((tmp / "stage/usr/local/lib/libkeylocker.a").read_bytes() == LIBRARY.read_bytes(), "another library is installed")
    need(f" {VERSION}\n" in must(command(tmp / "stage/usr/local/bin/keylocker-simulator", "--version"), 0, "--version").stdout, "--version")
    (tmp / "other.a").write_bytes(b"other")
    must(make("build/libkeylocker.a", f"LIBKEYLOCKER={tmp}/other.a", at=copy, env=env), 0, "make with another library")
    need((copy / "build/libkeylocker.a").read_bytes() == b"other", "the library of the last make stays")


# Says what rt says, and waits for the reader before it goes on. Of bits, which has not changed, rt says nothing.
RT = """#!/bin/sh
[ "${PWD##*/} $*" = "keylocker_c lib --cpu x86-64" ] || exit 2
echo "rt: chose --jobs 2 for fips197
fn fips197::sub_word: proved
library bits: modules loaded=9 checked=0
crate fips197: modules loaded=0 checked=33
logic=proved functions=1 logic-built=trusted" >&2
for i in $(seq 100); do [ -e go-on ] || sleep 0.1; done
[ -e go-on ] || exit 1
echo "crate keylocker_c: modules loaded=34 checked=0
axioms std: none reached of the 2 declared
logic=proved functions=12 target=x86_64-unknown-linux-gnu"
mkdir -p out
echo >out/libkeylocker_c.a
"""

FAILING_RT = """#!/bin/sh
for i in $(seq 60); do echo "line $i"; done
echo "crate bits: modules loaded=0 checked=9
logic=not-proved"
for i in $(seq 60); do echo "later $i"; done
exit 3
"""


def with_rt(tmp, text):
    """An environment in which that is rt."""
    (tmp / "bin").mkdir(exist_ok=True)
    (tmp / "bin/rt").write_text(text)
    (tmp / "bin/rt").chmod(0o755)
    return ENVIRONMENT | {"PATH": f"{tmp}/bin:{ENVIRONMENT['PATH']}"}


def crates_of(name):
    """How many crates it is, with all that it is built on."""
    lines = [line.partition("#")[0].split(":") for line in (ROOT / "crates.txt").read_text().splitlines()]
    uses = {line[0].split()[0]: line[1].split() for line in lines if len(line) == 2}
    reached, new = set(), {name}
    while new:
        reached |= new
        new = {crate for one in new for crate in uses[one] if crate in uses} - reached
    return len(reached)


def test_prove(tmp):
    """A line for each crate as it is proved, also where make holds the lines of others back, and nothing to do where nothing has changed."""
    copy, total = copied(tmp), crates_of("keylocker_c")
    library, env = "target/staticlib/libkeylocker.a", with_rt(tmp, RT)
    must(make("-n", library, at=copy, env=env), 0, "make -n")
    need(not (copy / "build").exists(), "make -n proves")
    with subprocess.Popen(["make", "-j2", "-Otarget", "-C", copy, library], stdout=subprocess.PIPE, text=True, env=env) as process:
        lines = []
        for line in process.stdout:
            lines += [line] if " of " in line else []
            if " fips197, " in line:
                (copy / "crates/keylocker_c/go-on").touch()
    need(process.returncode == 0, "make", process.returncode, lines)
    need(lines[0] == f"1 of {total} bits, unchanged\n" and re.fullmatch(rf"2 of {total} fips197, \d s\n", lines[1]), lines)
    need(re.fullmatch(rf"{total} of {total} keylocker_c, \d s\n", lines[-1]) and len(lines) == total, lines)
    need({line.split()[-1] for line in lines[2:-1]} == {"unchanged"}, lines)
    need("logic=proved functions=12" in (copy / "build/prove-keylocker.log").read_text(), "the log has not all that rt said")
    need((copy / library).read_bytes() == b"\n", "another library")
    need("up to date" in must(make(library, at=copy, env=env), 0, "make once more").stdout, "what has not changed is proved again")


def test_prove_fails(tmp):
    """What was said last of the crate is shown, and where the rest is; the status is rt's."""
    copy, env = copied(tmp), with_rt(tmp, FAILING_RT)
    result = must(make("target/staticlib/libkeylocker.a", at=copy, env=env), 2, "make with an rt that fails")
    need(f"1 of {crates_of('keylocker_c')} bits NOT PROVED\n" in result.stdout, result.stdout)
    said = result.stderr
    need("line 60\ncrate bits: modules loaded=0 checked=9\nlogic=not-proved\n" in said, said)
    need("line 20\n" not in said and "later" not in said and "prove-keylocker.log has all of it" in said, said)
    log = (copy / "build/prove-keylocker.log").read_text()
    need("line 1\n" in log and "later 60\n" in log, "the log has not all that rt said")
    need(not (copy / "target").exists(), "a library without a proof")
    must(command(copy / "tools/prove.sh", "keylocker", env=env), 3, "tools/prove.sh")


if __name__ == "__main__":
    harness.main(__file__, globals())
