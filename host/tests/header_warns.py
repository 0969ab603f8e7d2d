"""What a compiler says of calls by the header: header_warns.py ROOT COMPILER..

Right calls compile without a warning, in C99 and, where there is one, in C++. Wrong ones are told where a compiler can see them: fewer than four bytes by
every C compiler that knows `static 4`, three letters and a zero by clang. Another C than C99 is refused. `-` in place of a compiler stands for one that
is not there."""
import subprocess
import sys
import tempfile
from pathlib import Path

ROOT = Path(sys.argv[1])
checks = 0

CALL = '''#include <blorb.h>
int called(const uint8_t *file, blorb_editor *e);
int called(const uint8_t *file, blorb_editor *e)
{
    static const char four[] = {'P', 'i', 'c', 't'};
    char text[5];
    (void)file, (void)e, (void)four, (void)text;
    return (int)%s.refusal;
}
'''
RIGHT = ['blorb_lookup(file, 3, 0, "Snd ", 3)', "blorb_lookup(file, 3, 0, BLORB_USAGE_SND, 3)", "blorb_lookup(file, 3, 0, four, 3)",
         "blorb_lookup(file, 3, 0, blorb_tag_text(BLORB_SND, text), 3)", "blorb_editor_link(e, BLORB_USAGE_PICT, 1, BLORB_USAGE_PICT, 2)",
         "blorb_editor_add(e, BLORB_USAGE_PICT, 1, BLORB_TYPE_PNG, file, 3)", "blorb_text_of(file, 3, 0, BLORB_USAGE_PICT, 3)"]
TOO_FEW = ['blorb_lookup(file, 3, 0, "Sn", 3)', "blorb_lookup(file, 3, 0, NULL, 3)", 'blorb_add(0, 0, 0, 0, 0, 0, 0, "Pict", 1, "JP", 0, 0)',
           'blorb_link(0, 0, 0, 0, 0, 0, 0, "Pict", 1, "Pi", 2)', 'blorb_table_search(0, 0, "Pi", 2)']
THREE_LETTERS = ['blorb_lookup(file, 3, 0, "Snd", 3)', 'blorb_editor_lookup(e, "Snd", 3)', 'blorb_editor_add(e, "Pict", 1, "PNG", file, 3)',
                 'blorb_editor_replace(e, "Pict", 1, "PNG", file, 3)', 'blorb_editor_remove(e, "Snd", 1)', 'blorb_columns_search(0, 0, "Snd", 1)',
                 'blorb_editor_link(e, "Pict", 1, "Snd", 2)', 'blorb_text_of(file, 3, 0, "Snd", 3)']


def said(compiler, call, *flags):
    """The warnings and errors of compiling this call, or of what stands in its place."""
    with tempfile.TemporaryDirectory() as folder:
        source = Path(folder) / "call.c"
        source.write_text(CALL % call)
        words = [*compiler.split(), *flags, "-O2", "-Wall", "-Wextra", "-Wpedantic", f"-I{ROOT / 'include'}", "-c", "-o", f"{folder}/call.o", str(source)]
        return subprocess.run(words, capture_output=True, text=True, check=False).stderr


def holds(what, right, found):
    global checks
    checks += 1
    if not right:
        sys.exit(f"header_warns: {what}\n{found}")


def try_c(compiler):
    is_clang = "clang" in subprocess.run([*compiler.split(), "--version"], capture_output=True, text=True, check=True).stdout
    for standard in ("-std=c99", "-std=c11"):
        for call in RIGHT:
            found = said(compiler, call, standard)
            holds(f"{compiler} {standard} says something of {call}", found == "", found)
        for call in TOO_FEW:
            found = said(compiler, call, standard)
            holds(f"{compiler} {standard} does not warn of {call}", "warning:" in found, found)
        for call in THREE_LETTERS if is_clang else ():
            found = said(compiler, call, standard)
            holds(f"{compiler} {standard} does not warn of {call}", "four bytes are wanted" in found, found)
    found = said(compiler, RIGHT[0], "-std=c90")
    holds(f"{compiler} -std=c90 is not refused", "written in C99" in found, found)


def try_cpp(compiler):
    for call in RIGHT:
        found = said(compiler, call, "-std=c++11", "-x", "c++")
        holds(f"{compiler} says something of {call}", found == "", found)


def main():
    in_c, in_cpp, other = sys.argv[2:]
    for compiler in (in_c, other):
        if compiler != "-":
            try_c(compiler)
    if in_cpp != "-":
        try_cpp(in_cpp)
    print(f"header_warns: ok, {checks} checks")


if __name__ == "__main__":
    main()
