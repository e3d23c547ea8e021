#!/usr/bin/env python3
"""Makes the page's WebAssembly of a proved static library.

    web/module.py TOP CRATE MODULE

TOP is a repository whose libraries below CRATE are built, as they are behind `rt ci`; MODULE is written.

The kit compiles a library for WebAssembly only where it takes no memory from a heap (`Global`), and the program takes some. So the library is
built as for x86-64, whose pointers are as wide, as far as LLVM's language, and that text is compiled for wasm64 by the kit's own clang, with
the options that the kit gives it there. web/heap.c is the heap. As of any program, the proofs are of the sources: what compiles them, here
this script and heap.c among it, is trusted.
"""
import glob
import os
import re
import subprocess
import sys
import tempfile

WEB = os.path.dirname(os.path.realpath(__file__))
LAYOUT = "e-m:e-p:64:64-p10:8:8-p20:8:8-i64:64-i128:128-n32:64-S128-ni:1:10:20"
TARGET = "wasm64-unknown-unknown"
# What the kit gives its clang for wasm64.
OPTIONS = [
    f"--target={TARGET}", "-mcpu=lime1", "-mllvm", "-expand-div-rem-bits=64", "-mllvm", "-expand-fp-convert-bits=64", "-ffunction-sections",
    "-fdata-sections", "-mllvm", "-trap-unreachable", "-mllvm", "-disable-machine-licm", "-mllvm", "-disable-postra-machine-licm", "-mllvm",
    "-sink-common-insts=false", "--no-default-config", "-no-canonical-prefixes", "-fno-crash-diagnostics", "-Werror", "-c",
]
HEAP = ["-O2", "-std=c11", "-ffreestanding", "-nostdinc", "-fno-builtin-malloc", "-Wall"]
# A function's attributes that speak of x86-64, and those that stand in their place: what the kit's wasm64 has no function for isn't called.
OTHERS = r' ?"(?:target-cpu|probe-stack|stack-probe-size)"="[^"]*"'
WASM = ' "no-builtin-bcmp" "no-builtin-memcmp" "no-builtin-strlen" "target-cpu"="lime1"'
STACK = 4 * 1024 * 1024
# The one instruction of x86-64 that std uses (where it tests for UTF-8): of 16 bytes, those at the places that 16 others give by their
# last four bits, and 0 where such a byte's first bit is set. This function stands in its place.
SHUFFLE = "llvm.x86.ssse3.pshuf.b.128"


def shuffle():
    """That function in LLVM's language."""
    lines = ["define internal <16 x i8> @shuffled_bytes(<16 x i8> %bytes, <16 x i8> %places) {", "  %room = alloca [16 x i8], align 16",
             "  store <16 x i8> %bytes, ptr %room, align 16"]
    for k in range(16):
        before = f"%all{k - 1}" if k else "zeroinitializer"
        lines += [f"  %place{k} = extractelement <16 x i8> %places, i32 {k}", f"  %low{k} = and i8 %place{k}, 15",
                  f"  %index{k} = zext i8 %low{k} to i64", f"  %at{k} = getelementptr i8, ptr %room, i64 %index{k}",
                  f"  %byte{k} = load i8, ptr %at{k}, align 1", f"  %none{k} = icmp slt i8 %place{k}, 0",
                  f"  %here{k} = select i1 %none{k}, i8 0, i8 %byte{k}",
                  f"  %all{k} = insertelement <16 x i8> {before}, i8 %here{k}, i32 {k}"]
    return "\n".join([*lines, "  ret <16 x i8> %all15", "}"])


def kit():
    """The folder of the kit."""
    return os.path.dirname(subprocess.run(["rt", "doc"], check=True, capture_output=True, text=True).stdout.strip())


def for_wasm(text):
    """A module in LLVM's language for wasm64 in place of x86-64: its functions with C's calls are exported, and those of C stay outside."""
    layout = re.search(r'^target datalayout = "(.*)"$', text, re.M)[1]
    if not layout.startswith("e-m:e-") or "i64:64" not in layout or "i128:128" not in layout or "x86_64" not in text[:2000]:
        sys.exit("module.py: the library isn't laid out as for x86-64")
    text = re.sub(rf"^declare <16 x i8> @{re.escape(SHUFFLE)}\(.*$", lambda found: shuffle(), text, flags=re.M)
    text = text.replace(f"@{SHUFFLE}(", "@shuffled_bytes(")
    if re.search(r"@llvm\.x86|\basm\b(?! *=)", re.sub(r'"[^"]*"', "", text)):
        sys.exit("module.py: the library has code for x86-64 alone")
    text = re.sub(r'^target datalayout = ".*"$', f'target datalayout = "{LAYOUT}"', text, count=1, flags=re.M)
    text = re.sub(r'^target triple = ".*"$', f'target triple = "{TARGET}"', text, count=1, flags=re.M)
    text = re.sub(r"^attributes #\d+ = \{.*\}$", lambda found: with_wasm(found[0]), text, flags=re.M)
    exported = re.findall(r"^define (?!internal\b).*@(\w+)\(", text, re.M)
    for number, name in enumerate(exported):
        group = 100000 + number
        text = re.sub(rf"^(define (?!internal\b).*@{name}\(.*\)) #\d+ \{{$", rf"\1 #{group} {{", text, flags=re.M)
        text += f'\nattributes #{group} = {{ nounwind{WASM} "wasm-export-name"="{name}" }}\n'
    return text


def with_wasm(group):
    plain = re.sub(OTHERS, "", group)
    return plain if plain == group else plain.replace(" }", f"{WASM} }}")


def as_clang(real, words):
    """Stands in for the kit's clang where rattle compiles a library: makes the object for wasm64."""
    source, made = words[words.index("-x") + 2], words[words.index("-o") + 1]
    with tempfile.TemporaryDirectory() as room:
        run = [real, "-S", "-emit-llvm", "-Xclang", "-disable-llvm-passes", "--no-default-config", "-x", "ir", source, "-o", f"{room}/module.ll"]
        subprocess.run(run, check=True)
        with open(f"{room}/module.ll", encoding="utf-8") as file:
            text = for_wasm(file.read())
        with open(f"{room}/module.ll", "w", encoding="utf-8") as file:
            file.write(text)
        return subprocess.run([real, *OPTIONS, "-O3", "-x", "ir", f"{room}/module.ll", "-o", made], check=False).returncode


def link(folder, archive, module):
    """Links a library for wasm64 with the heap."""
    clang, room = f"{folder}/toolchain/bin/clang", os.path.dirname(archive)
    subprocess.run([clang, *OPTIONS, *HEAP, "-x", "c", f"{WEB}/heap.c", "-o", f"{room}/heap.o"], check=True)
    subprocess.run([f"{folder}/toolchain/bin/llvm-ar", "rs", archive, f"{room}/heap.o"], check=True, stderr=subprocess.DEVNULL)
    words = ["--target", TARGET, "--toolchain", f"{folder}/toolchain", "--stack", str(STACK), "-o", module, archive]
    said = subprocess.run([f"{folder}/bin/rattle-link", *words], check=True, stderr=subprocess.PIPE, text=True).stderr
    imports = re.search(r"imports=(\S+)", said)
    if not imports or imports[1] != "page.look":
        sys.exit(f"module.py: the module asks for more than web/worker.js has: {said}")


def listed(top):
    """The crates of the repository with what they stand on."""
    with open(f"{top}/crates.txt", encoding="utf-8") as file:
        lines = [line.partition(":") for line in file if re.match("[a-z]", line)]
    return {head.split()[0]: rest.split() for head, _, rest in lines}


def library(folder, top, crate, archive, toolchain):
    """Builds the static library, which rattle does only where it is proved."""
    crates, below = listed(top), []
    waiting = [crate]
    while waiting:
        for name in crates[waiting.pop()]:
            if name in crates and name not in below:
                below.append(name)
                waiting.append(name)
    words = ["--crate-name", crate, "src/lib.rt", "--crate-type", "staticlib", "--extern", f"std={folder}/rlibs/std.rlib"]
    for name in crates[crate]:
        words += ["--extern", f"{name}={top}/crates/{name}/out/rlib/{name}.rlib" if name in crates else f"{name}={folder}/rlibs/{name}.rlib"]
    for place in [f"{folder}/rlibs", *(f"{top}/crates/{name}/out/rlib" for name in below)]:
        words += ["-L", f"dependency={place}"]
    words += ["--antt-project", f"{folder}/rattle/logic/antt-project.json", "--logic-built", f"{folder}/logic_built"]
    words += ["--incremental", f"{top}/crates/{crate}/out/incremental", "--jobs", "1", "--toolchain", toolchain, "-o", archive]
    os.makedirs(f"{top}/crates/{crate}/out/incremental", exist_ok=True)
    subprocess.run([f"{folder}/bin/rattle", "build", *words], cwd=f"{top}/crates/{crate}", check=True)


def toolchain_in(room, folder):
    """A folder of tools as the kit has it, whose clang is this script."""
    os.makedirs(f"{room}/toolchain/bin")
    os.symlink(f"{folder}/toolchain/lib", f"{room}/toolchain/lib")
    for file in glob.glob(f"{folder}/toolchain/bin/*"):
        if os.path.basename(file) != "clang":
            os.symlink(file, f"{room}/toolchain/bin/{os.path.basename(file)}")
    with open(f"{room}/toolchain/bin/clang", "w", encoding="utf-8") as file:
        file.write(f'#!/bin/sh\nexec "{sys.executable}" "{os.path.realpath(__file__)}" --as-clang "{folder}/toolchain/bin/clang" "$@"\n')
    os.chmod(f"{room}/toolchain/bin/clang", 0o755)
    return f"{room}/toolchain"


def main(words):
    if words[:1] == ["--as-clang"]:
        return as_clang(words[1], words[2:])
    if len(words) != 3:
        print(__doc__, file=sys.stderr)
        return 2
    top, crate, module = os.path.abspath(words[0]), words[1], os.path.abspath(words[2])
    folder = kit()
    with tempfile.TemporaryDirectory(prefix="tmpl-module-") as room:
        library(folder, top, crate, f"{room}/lib{crate}.a", toolchain_in(room, folder))
        link(folder, f"{room}/lib{crate}.a", module)
    return 0


if __name__ == "__main__":
    sys.exit(main(sys.argv[1:]))
