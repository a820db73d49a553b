#!/usr/bin/env python3
"""Builds a program from its sources without any proof, optimised, to count where its time goes.

`rt try` compiles a program without a proof and without optimisation, and runs it. Here its module
is taken from it as the compiler gets it, and compiled and linked once more. What comes out keeps
each test that a proof spares, so it is slower than the proved program, unevenly so. It is good for
counts, before and after a change, and for nothing else.

With `--as-proved` the tests are taken out, as proofs do: each is assumed to hold. What comes out
is nearly the proved program, in instructions and in time, and does anything at all where a proof
would fail. It is good for times of a change that is yet to be proved.
"""
import argparse
import os
import pathlib
import shutil
import subprocess
import sys
import tempfile
import time

FLAGS = ["-march=x86-64", "-O3", "-fPIE",
         "-ffunction-sections", "-fdata-sections", "--no-default-config", "-c", "-x", "ir"]


def words_of(process):
    """The words of a process, none where it has ended."""
    try:
        return (process / "cmdline").read_bytes().decode(errors="replace").split("\0")[:-1]
    except OSError:
        return []


def children_of(parent):
    """The processes below one, as folders of /proc."""
    found, level = [], [str(parent)]
    while level:
        below = []
        for process in level:
            for thread in pathlib.Path("/proc").glob(f"{process}/task/*/children"):
                try:
                    below += thread.read_text().split()
                except OSError:
                    pass
        found += [pathlib.Path("/proc", task) for task in below]
        level = below
    return found


def option(words, name):
    """The values that stand behind an option, in order."""
    return [value for word, value in zip(words, words[1:]) if word == name]


def take_module(crate, kept):
    """Runs `rt try` until its compiler has the module; its toolchain, and what is linked."""
    run = subprocess.Popen(["rt", "try"], cwd=crate, stdin=subprocess.DEVNULL,
                           stdout=subprocess.DEVNULL, stderr=subprocess.DEVNULL,
                           start_new_session=True)
    toolchain, archives = None, []
    try:
        while run.poll() is None:
            for process in children_of(run.pid):
                words = words_of(process)
                if "--toolchain" in words:
                    toolchain, archives = option(words, "--toolchain")[0], option(words, "--link")
                elif toolchain and words and words[0].endswith("/clang") and "module.bc" in words:
                    try:
                        shutil.copyfile(process / "cwd" / "module.bc", kept)
                    except FileNotFoundError:  # that compiler has ended
                        continue
                    if kept.stat().st_size > 100_000:
                        return toolchain, archives
            time.sleep(0.02)
    finally:
        try:
            os.killpg(run.pid, 15)
        except ProcessLookupError:
            pass
    sys.exit("unproved: `rt try` ended before a module was compiled; run it to see why")


def without_tests(clang, module, spared):
    """Writes a module again whose tests can't fail, so that the compiler leaves them out."""
    kept = spared.with_suffix(".whole.ll")
    subprocess.run([*clang, "-x", "ir", module, "-S", "-emit-llvm", "-O0",
                    "-Xclang", "-disable-llvm-passes", "-o", kept], check=True)
    with kept.open() as lines, spared.open("w") as out:
        for line in lines:
            stops = "call void @llvm.trap()" in line
            marks = "call void @llvm.memset" in line and ", i8 -86," in line
            if not stops and not marks:
                out.write(line)


def main():
    words = argparse.ArgumentParser(description=__doc__.split("\n")[0])
    words.add_argument("crate", help="a program's folder, as crates/vk_main")
    words.add_argument("output", help="the program to write")
    words.add_argument("--apart", action="store_true",
                       help="keep functions apart: slower, and counts are by function")
    words.add_argument("--as-proved", action="store_true",
                       help="leave out the tests, as proofs do")
    words = words.parse_args()
    with tempfile.TemporaryDirectory() as folder:
        module, made = pathlib.Path(folder, "module.bc"), pathlib.Path(folder, "module.o")
        toolchain, archives = take_module(words.crate, module)
        clang = [f"{toolchain}/bin/clang", "--target=x86_64-unknown-linux-gnu",
                 f"--sysroot={toolchain}"]
        if words.as_proved:
            spared = pathlib.Path(folder, "spared.ll")
            without_tests(clang, module, spared)
            module = spared
        inlining = ["-mllvm", f"-inline-threshold={-5000 if words.apart else 3000}"]
        subprocess.run([*clang, *FLAGS, *inlining, module, "-o", made], check=True)
        subprocess.run(["gcc", "-pie", made, *archives, "-lm", "-o", words.output], check=True)


main()
