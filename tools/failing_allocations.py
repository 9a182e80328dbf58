#!/usr/bin/env python3
"""Lets each allocation of a built `tsume` fail, one a run, and prints those runs that end in another way than the whole run does
or with `out of memory`, status 6 and nothing printed. Of what is told beside the answer the first line is compared; it may be missing,
for want of memory.

Several workers may end with another line of moves and another certificate each time: of these runs the verdict is compared, and `check`
has to accept what is printed. With 64 of them over a table of 16 rows, the worker whose allocation fails is starved and the others go on.

usage: tools/failing_allocations.py PROGRAM     at the top of the repository; wants gcc
"""
import os, subprocess, sys, tempfile

SHIM = r"""
#define _GNU_SOURCE
#include <dlfcn.h>
#include <errno.h>
#include <stdio.h>
#include <stdlib.h>
#include <unistd.h>
static long count = 0, at = -1;
static void *(*next_malloc)(size_t);
static void *(*next_realloc)(void *, size_t);
static void setup(void) {
    if (next_malloc) return;
    next_malloc = dlsym(RTLD_NEXT, "malloc");
    next_realloc = dlsym(RTLD_NEXT, "realloc");
    const char *text = getenv("FAIL_AT");
    if (text) at = atol(text);
}
static int fails(void) { if (__sync_add_and_fetch(&count, 1) != at) return 0; errno = ENOMEM; return 1; }
void *malloc(size_t size) { setup(); return fails() ? 0 : next_malloc(size); }
void *realloc(void *old, size_t size) { setup(); return size && fails() ? 0 : next_realloc(old, size); }
#include <sys/syscall.h>
void _exit(int status) {
    if (getenv("FAIL_COUNT")) { char line[64]; write(2, line, snprintf(line, sizeof line, "allocations %ld\n", count)); }
    syscall(SYS_exit_group, status);
    for (;;) ;
}
"""
CASES = [
    (["solve"], "gold-drop-mates.sfen"),
    (["solve", "--rest"], "gold-drop-mates.sfen"),
    (["solve"], "two-rooks.sfen"),
    (["solve"], "second-pawn-on-the-file.sfen"),
    (["solve", "--expansions", "20"], "two-rooks.sfen"),
    (["solve"], "defender-already-in-check.sfen"),
    (["check"], "rook-chases-king.cert"),
    (["check"], "equal-ranks.cert"),
    (["check"], "two-rooks-mate.cert"),
    (["check"], "two-rooks.sfen"),
    (["solve", "--rows", "24"], "two-rooks.sfen"),
    (["solve", "--workers", "0"], "two-rooks.sfen"),
    (["solve", "--help"], "two-rooks.sfen"),
    (["check", "--workers", "2"], "rook-chases-king.cert"),
    (["check", "--workers", "64"], "two-rooks-mate.cert"),
    (["check", "--bound"], "two-rooks-shortest.txt"),
    (["check", "--collection", "--workers", "1"], "collection-told.txt"),
    (["solve", "--library"], "two-rooks-with-library.txt"),
    (["cook", "--line", "R*2b 5b4a 1c1a"], "two-rooks.sfen"),
    (["upgrade"], "two-rooks-mate.cert"),
]
CREWS = [
    (["solve", "--workers", "2"], "gold-drop-mates.sfen"),
    (["solve", "--workers", "2"], "two-rooks.sfen"),
    (["solve", "--workers", "2"], "second-pawn-on-the-file.sfen"),
    (["solve", "--workers", "64", "--rows", "16", "--shards", "1"], "two-rooks.sfen"),
    (["solve", "--library", "--workers", "2"], "two-rooks-with-library.txt"),
]


def first(seen):
    status, answer, told = seen
    return status, answer, told.split(b"\n")[0]


def verdict(seen):
    """The status, and whether it is a mate, none, or unknown."""
    status, answer, told = seen
    words = answer.split(b"\n")[0].split(b" ")
    return status, words[0], words[1] if words[1:] and words[1] in (b"nomate", b"timeout") else b"moves"


def is_accepted(program, answer):
    ran = subprocess.run([program, "check"], input=answer, capture_output=True, timeout=60)
    return ran.returncode == 0 and ran.stdout.startswith(b"accepted ")


def main():
    if len(sys.argv) != 2:
        sys.exit(__doc__)
    runs = other = 0
    with tempfile.TemporaryDirectory() as folder:
        source, shim = os.path.join(folder, "shim.c"), os.path.join(folder, "shim.so")
        with open(source, "w") as out:
            out.write(SHIM)
        subprocess.run(["gcc", "-shared", "-fPIC", "-w", "-o", shim, source, "-ldl"], check=True)
        for words, name in CASES + CREWS:
            with open(os.path.join("examples", name), "rb") as given:
                text = given.read()

            def run(**more):
                settings = dict(os.environ, LD_PRELOAD=shim, **more)
                ran = subprocess.run([sys.argv[1]] + words, input=text, capture_output=True, env=settings, timeout=60)
                return ran.returncode, ran.stdout, ran.stderr

            whole = run()
            count = int(run(FAIL_COUNT="1")[2].split()[-1])
            for number in range(1, count + 1):
                seen = run(FAIL_AT=str(number))
                runs += 1
                ends = first(whole), (6, b"", b"tsume: out of memory"), (*whole[:2], b"")
                fine = first(seen) in ends
                if not fine and (words, name) in CREWS:
                    fine = verdict(seen) == verdict(whole) and is_accepted(sys.argv[1], seen[1])
                if not fine:
                    other += 1
                    print(words, name, "allocation", number, seen)
    print(f"{runs} runs, {other} that end otherwise")
    sys.exit(1 if other else 0)


main()
