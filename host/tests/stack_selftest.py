"""The stack checks on small planted inputs: each breach has to be refused for its own reason, and the same code without it accepted.

CC names the C compiler. The source plants are a crate of two files with one change each, the archive plants a C file of two functions each, in sections of
their own, as the proved code has them, and in one, as plain C.
"""
import os
import shlex
import subprocess
import sys
import tempfile
from pathlib import Path

import stack_archive
import stack_source

LIB = """#![tactic(auto)]
// Comments count for nothing: read(s) [0u8; 65]
mod deep;
ghost use one.specs.Reading.{read};
pub struct Kept {
    pub bytes: [u8; 4],
}

impl Kept {
    pub const MARK: u64 = 7;

    pub fn first(self) -> u64
        ensures { λ r. ⌜ r ≡ first (self [0; 99]) ⌝ }
    {
        self.bytes[0] as u64
    }
}

fn step(s: &[u8], n: usize) -> u64 {
    let mut tops = [0u64; 8];
    if !(s.len() <= n) {
        tops[n % 8] = deep::below(s, n);
    }
    tops[n % 8]
}

pub fn read(s: &[u8], wide: &mut [u64; 9]) -> u64 {
    let kept = Kept { bytes: *b"Pict" };
    step(s, 0) + kept.first() + forms(s, wide).unwrap_or(0)
}

#[derive(Clone, Copy)]
pub struct Stop {
    pub place: usize,
}

impl From<u64> for Stop {
    ghost from_gives = { λ place stop. record { place = place; at = [0; 99] } };

    fn from(place: u64) -> Stop {
        Stop { place: place as usize }
    }
}

pub trait Keys: Copy {
    ghost source: { Self → List ℕ };

    fn key(&self, at: usize) -> u64
        requires inside { at < length (source self.now) }
        ensures { result ≡ get_or (source self.now) at 0 };
}

#[derive(Clone, Copy)]
struct List<'a> {
    bytes: &'a [u8],
    pub ghost few: { length bytes.now ≤ sum [0; 99] },
}

impl Keys for List<'_> {
    ghost source = { λ l. l.bytes.now };

    fn key(&self, at: usize) -> u64 {
        u16::from_be_bytes([self.bytes[at], self.bytes[at + 1]]) as u64
    }
}

impl<'a> List<'a> {
    fn len(&self) -> usize {
        self.bytes.len()
    }

    fn position(&self, k: u8) -> Option<usize> {
        self.bytes[..self.len()].iter().position(|b| *b == k)
    }
}

#[tactic(auto, unfolding(crate::specs::Reading::summed))]
fn summed<L: Keys>(list: L, n: usize) -> Result<u64, u64>
    ensures sum { result ≡ Ok (sum (L.source list)) }
{
    let mut total: u64 = 0;
    for i in 0..n {
        total = total.saturating_add(list.key(i));
    }
    if matches!(total, 0 | 7) { Err(total) } else { Ok(total) }
}

#[derive(Drop)]
struct Marks {
    marks: [u8; 64],
    count: usize,
}

fn counted(marks: &mut Marks) -> usize {
    marks.count
}

impl Marks {
    fn new() -> Marks {
        Marks { marks: [0; 64], count: 0 }
    }
}

fn marked() -> Marks {
    Marks::new()
}

fn cleared(wide: &mut [u64; 9]) {
    *wide = [0; 9];
}

fn is_small(b: &u8) -> bool {
    *b < 8
}

fn forms(s: &[u8], wide: &mut [u64; 9]) -> Result<u64, Stop> {
    let list = List { bytes: s };
    let total = summed(list, list.len())?;
    cleared(wide);
    let mut marks = marked();
    if s.iter().all(is_small) {
        return Ok(counted(&mut marks) as u64);
    }
    let Some(at) = list.position(0) else {
        return Ok(total);
    };
    Ok(at as u64)
}
"""
DEEP = """// Two.
use crate::Kept;
const WIDTH: usize = 8;

pub fn below(s: &[u8], n: usize) -> u64 {
    let small = [0u8; WIDTH];
    small[0] as u64 + Kept::MARK
}
"""
# What is planted, where, in place of what, the group, and what the refusal has to say; None for what is allowed.
SOURCE = [
    ("nothing", "lib", "", "", "reading", None),
    ("a function that calls itself", "deep", "small[0] as u64", "below(s, n)", "reading", "recursion: one::deep::below"),
    ("two files that call each other", "deep", "small[0] as u64", "crate::step(s, n)", "reading", "recursion: one::step"),
    ("a method that calls itself", "lib", "self.bytes[0] as u64", "self.first()", "reading", "recursion: one::Kept::first"),
    ("recursion in an editing call", "deep", "small[0] as u64", "below(s, n)", "editing", "recursion"),
    ("an array of 64 bytes", "deep", "[0u8; WIDTH]", "[0u8; 64]", "reading", None),
    ("an array of 65 bytes", "deep", "[0u8; WIDTH]", "[0u8; 65]", "reading", "array of 65 bytes"),
    ("nine numbers", "lib", "[0u64; 8]", "[0u64; 9]", "reading", "array of 72 bytes"),
    ("nine numbers of no written type", "lib", "[0u64; 8]", "[0; 9]", "reading", "array of 72 bytes"),
    ("nine numbers one by one", "lib", "[0u64; 8]", "[1u64, 2, 3, 4, 5, 6, 7, 8, 9]", "reading", "array of 72 bytes"),
    ("sixteen numbers of 32 bits one by one", "lib", "[0u64; 8]", "[0u32, 1, 2, 3, 4, 5, 6, 7, 8, 9, 10, 11, 12, 13, 14, 15]", "reading", None),
    ("seventeen numbers of 32 bits one by one", "lib", "[0u64; 8]", "[0u32, 1, 2, 3, 4, 5, 6, 7, 8, 9, 10, 11, 12, 13, 14, 15, 16]", "reading", "array of 68 bytes"),
    ("an array of arrays", "deep", "[0u8; WIDTH]", "[[0u8; 13]; 5]", "reading", "array of 65 bytes"),
    ("an array by a constant", "deep", "usize = 8", "usize = 65", "reading", "array of 65 bytes"),
    ("an array in a structure", "lib", "[u8; 4]", "[u8; 65]", "reading", "array of 65 bytes"),
    ("an array as a parameter", "deep", "n: usize)", "n: usize, t: [u8; 65])", "reading", "array of 65 bytes"),
    ("a lent array", "deep", "n: usize)", "n: usize, t: &[u8; 65])", "reading", None),
    ("an array of bytes by value", "lib", '*b"Pict"', '*b"' + "x" * 65 + '"', "reading", "array of 65 bytes"),
    ("a length that is no number", "deep", "[0u8; WIDTH]", "[0u8; 8 * 9]", "reading", "no plain number"),
    ("an unknown function", "deep", "small[0] as u64", "elsewhere(n)", "reading", "does not find"),
    ("a public function that is in no group", "lib", "fn step", "pub fn step", "reading", "one::step: a public function"),
    ("a public function for C that is in no group", "lib", "fn step", 'pub extern "C" fn step', "reading", "one::step: a public function"),
    ("a public function for C in a module that is in no group", "deep", "pub fn", 'pub extern "C" fn', "reading", "one::deep::below: a public"),
    ("an unknown method", "deep", "small[0] as u64", "s.sum()", "reading", "does not know"),
    ("the two that may call each other", "deep", "small[0] as u64", "crate::step(s, n)", "grouping", None),
    ("one of them by itself", "deep", "small[0] as u64", "below(s, n)", "grouping", None),
    ("a third one in their cycle", "deep", "small[0] as u64", "crate::read(s)", "grouping", "recursion: one::read"),
    ("another cycle in a grouping call", "lib", "self.bytes[0] as u64", "self.first()", "grouping", "recursion: one::Kept::first"),
    ("an array of 65 bytes in a grouping call", "deep", "[0u8; WIDTH]", "[0u8; 65]", "grouping", "array of 65 bytes"),
    ("a large array in an editing call", "deep", "[0u8; WIDTH]", "[0u8; 2048]", "editing", None),
    ("marks in a call on a list", "deep", "[0u8; WIDTH]", "[0u64; 896]", "lists", None),
    ("marks twice at once in a call on a list", "deep", "[0u8; WIDTH]", "[[0u64; 896]; 2]", "lists", "bytes of arrays by one::read"),
    ("two arrays at once in an editing call", "deep", "[0u8; WIDTH]", "[[0u8; 2048]; 2]", "editing", "bytes of arrays by one::read"),
    ("a method that calls itself and has a name of the library's", "lib", "self.bytes.len()", "self.len()", "reading", "recursion: one::List::len"),
    ("recursion by a trait's method", "lib", "u16::from_be_bytes([self.bytes[at], self.bytes[at + 1]])", "summed(*self, at).unwrap_or(0)", "reading",
     "recursion: one::summed calls one::List::key"),
    ("recursion by a function that is named", "lib", "*b < 8", "[*b].iter().all(is_small)", "reading", "recursion: one::is_small"),
    ("recursion within a closure", "lib", "|b| *b == k", "|b| self.position(*b).is_some()", "reading", "recursion: one::List::position"),
    ("recursion by the conversion of a ?", "lib", "Stop { place: place", "Stop { place: forms(b\"\", wide).unwrap_or(0)", "reading",
     "recursion: one::forms calls one::Stop::from"),
    ("a ? that converts to what is not written", "lib", "Result<u64, Stop> {", "Answer {", "reading", "neither an Option nor a Result"),
    ("a loop's trait by hand", "lib", "impl<'a> List<'a>", "impl Iterator for List<'_>", "reading", "an impl of Iterator"),
    ("an unknown macro", "lib", "matches!(", "assert!(", "reading", "the macro assert!"),
    ("a parameter that is called", "lib", "list.key(i)", "n(i)", "reading", "calls its parameter n"),
    ("a field that is called", "lib", "list.key(i)", "(list.key)(i)", "reading", "what an expression gives"),
    ("a trait's method by its path", "lib", "list.key(i)", "Keys::key(&list, i)", "reading", "does not find"),
    ("an unknown method of a slice", "lib", "s.iter().all(is_small)", "s.iter().eq(s)", "reading", "does not know"),
    ("a function of a number's type that is unknown", "lib", "u16::from_be_bytes", "u16::from_text", "reading", "does not find"),
    ("an array of 65 bytes in what is given back", "lib", "marks: [u8; 64]", "marks: [u8; 65]", "reading", "array of 65 bytes"),
    ("a large structure that is lent", "lib", "marks: [u8; 64]", "marks: [u8; 2048]", "editing", None),
    ("a large structure that is taken besides", "lib", "marks: [u8; 64],\n    count: usize,\n}\n\nfn counted(marks: &mut Marks)",
     "marks: [u8; 2048],\n    count: usize,\n}\n\nfn counted(marks: Marks)", "editing", "bytes of arrays by one::read"),
    ("nine numbers beside those that they are assigned to", "lib", "*wide = [0; 9]", "let other = [0; 9]", "reading", "array of 72 bytes"),
    ("nine numbers that are copied out of what is lent", "lib", "*wide = [0; 9]", "let other = *wide", "reading", "array of 72 bytes"),
    ("an array that is copied out of a field", "lib", "marks: [u8; 64],\n    count: usize,\n}\n\nfn counted(marks: &mut Marks) -> usize {\n    marks.count",
     "marks: [u8; 2048],\n    count: usize,\n}\n\nfn counted(marks: &mut Marks) -> usize {\n    let other = marks.marks;\n    marks.count", "editing",
     "bytes of arrays by one::read"),
    ("an array of what is unknown", "lib", "bytes: &'a [u8],", "bytes: &'a [u8],\n    more: [Other; 2],", "reading", "whose type this check does not know"),
]

# What may recurse in a planted grouping call.
MAY_RECURSE = frozenset({"one::step", "one::deep::below", "step", "held"})

CODE = """
typedef unsigned char byte;
typedef unsigned long u64;
u64 strange(u64);
void *memmove(void *, const void *, u64);
u64 blorb_read(const byte *, u64, u64 (*)(u64));
static u64 step(const byte *, u64, u64 (*)(u64));
static __attribute__((noinline, noipa)) u64 held(const byte *s, u64 n, u64 (*f)(u64)) { volatile byte t[8]; t[n % 8] = s[0]; return t[1] ^ step(s, n, f) * 3; }
static __attribute__((noinline, noipa)) u64 step(const byte *s, u64 n, u64 (*f)(u64)) { @BODY@ }
u64 blorb_read(const byte *s, u64 n, u64 (*f)(u64)) { u64 a = step(s, n, f); return a * 3 + s[n]; }
"""
NUMBERS = "u64 tops[@N@] = {0}, i; for (i = 0; i < n; i++) if (tops[s[i] % @N@] <= s[i]) tops[s[i] % @N@] = s[i] + n; return tops[s[n] % @N@];"
BYTES = "volatile byte t[@N@] = {0}; u64 i; for (i = 0; i < n; i++) t[s[i] % @N@] = s[i]; return t[s[n] % @N@];"
EDITED = "volatile byte t[900] = {0}; u64 i; for (i = 0; i < n; i++) t[s[i]] = s[i]; return t[s[n]];"
NESTS = "volatile byte t[@N@]; t[n % @N@] = s[0]; return n < 2 ? t[1] : t[s[1] % @N@] ^ step(s, n - 1, f) * 3;"
CASES = """switch (n) { case 0: return s[1]; case 1: return s[7] * n; case 2: return s[s[2]]; case 3: return s[9] / (n + s[1]); case 4: return n ^ s[3];
case 5: @LAST@; default: return s[6] + n; }"""
LENDS = """struct { u64 tops[8], kept[@N@]; } a = {{0}}; u64 i; for (i = 0; i < @N@; i++) a.kept[i] = n + i;
__asm__ volatile("" : : "r"(@LENT@) : "memory"); for (i = 0; i < n; i++) a.tops[s[i] % 8] += s[i]; return a.tops[s[n] % 8];"""
ARCHIVE = [
    ("a jump table", CASES.replace("@LAST@", "return s[n] - s[4]"), "reading", None),
    ("recursion by way of a jump table", CASES.replace("@LAST@", "return s[4] ^ blorb_read(s + 1, s[n], f)"), "editing", ("recursion",)),
    ("bytes copied in bulk by way of a jump table", CASES.replace("@LAST@", "memmove((void *)s, s + 1, s[n]); return s[2]"), "reading", ("in bulk",)),
    ("an array of 64 bytes", NUMBERS.replace("@N@", "8"), "reading", None),
    ("an array of 64 bytes before what is lent", LENDS.replace("@N@", "3").replace("@LENT@", "a.kept"), "reading", None),
    ("an array of 64 bytes before more than that, lent", LENDS.replace("@N@", "9").replace("@LENT@", "a.kept"), "reading", ("array of", "in bulk")),
    ("an array of 72 bytes", NUMBERS.replace("@N@", "9"), "reading", ("array of", "in bulk")),
    ("an array of 65 bytes", BYTES.replace("@N@", "65"), "reading", ("array of", "in bulk")),
    ("an array of 4,096 numbers", NUMBERS.replace("@N@", "4096"), "reading", ("array of", "in bulk", "header allows")),
    ("recursion", "u64 a = n < 2 ? 1 : blorb_read(s, n - 2, f); return n < 2 ? a : a ^ blorb_read(s, n - 1, f);", "editing", ("recursion",)),
    ("a call through a pointer", "return f(n) + 1;", "reading", ("through a pointer",)),
    ("an array as long as an argument says", "volatile byte t[n + 1]; t[n] = s[0]; return t[n] + strange(n);", "editing",
     ("unknown amount", "neither")),
    ("a call of another function", "return strange(n) + 1;", "reading", ("neither",)),
    ("bytes copied in bulk", "memmove((void *)s, s + 1, n); return s[0];", "reading", ("in bulk",)),
    ("the same in an editing call", "memmove((void *)s, s + 1, n); return s[0];", "editing", None),
    ("more stack than the header allows", EDITED, "editing", ("header allows",)),
    ("recursion of one that may", NESTS.replace("@N@", "8"), "grouping", None),
    ("the same in a reading call", NESTS.replace("@N@", "8"), "reading", ("recursion",)),
    ("the same in an editing call", NESTS.replace("@N@", "8"), "editing", ("recursion",)),
    ("16 levels of it, more than the header allows", NESTS.replace("@N@", "60"), "grouping", ("header allows",)),
    ("16 levels of two that call each other, more than the header allows", NESTS.replace("@N@", "8").replace("step", "held"), "grouping", ("header allows",)),
    ("another one in its cycle", "return n < 2 ? 1 : s[n] ^ blorb_read(s, n - 2, f) * 3;", "grouping", ("recursion",)),
    ("an array of 72 bytes in a grouping call", NUMBERS.replace("@N@", "9"), "grouping", ("array of", "in bulk")),
]


# A function without a C call beside an editing call: its body, the functions looked at, those that must be there, and what the refusal has to say.
INNER = [
    ("with an array of 64 bytes", NUMBERS.replace("@N@", "8"), ("step",), ("step",), None),
    ("with an array of 72 bytes", NUMBERS.replace("@N@", "9"), ("step",), ("step",), ("array of", "in bulk")),
    ("that is not there", NUMBERS.replace("@N@", "9"), ("elsewhere",), (), None),
    ("that is not there and must be", NUMBERS.replace("@N@", "8"), ("elsewhere",), ("elsewhere",), ("has no elsewhere",)),
]


def judged(what, found, wanted):
    """`found` is what the check said, None where it accepted."""
    if wanted is None and found is not None or wanted is not None and (found is None or not any(w in found for w in wanted)):
        sys.exit(f"stack_selftest: {what}: the check says {found!r}, not {wanted!r}")


def said(check, breach):
    try:
        check()
    except breach as refused:
        return str(refused)
    return None


def source_plants(folder):
    for k, (what, stem, old, new, group, wanted) in enumerate(SOURCE):
        files = {"lib": LIB, "deep": DEEP}
        if old not in files[stem]:
            sys.exit(f"stack_selftest: {what}: nothing to plant it in")
        files[stem] = files[stem].replace(old, new, 1) if old else files[stem]
        place = folder / str(k) / "crates/one/src"
        place.mkdir(parents=True)
        for name, text in files.items():
            (place / f"{name}.rt").write_text(text)
        found = said(lambda: stack_source.checked(folder / str(k), [(group, None, "one::read")], MAY_RECURSE), stack_source.Breach)
        judged(f"source, {what}", found, None if wanted is None else (wanted,))


def compiled(folder, body, generic=False):
    """Both forms of the plant: in sections of their own, and in one; and, where it is asked for, with names like those of generic functions."""
    compiler = shlex.split(os.environ.get("CC", "cc"))
    flags = ["-O2", "-w", "-fno-stack-protector", "-fcf-protection=none", "-fPIC", "-c"]
    code, built = folder / "plant.c", folder / "plant.o"
    code.write_text(CODE.replace("@BODY@", body))
    for sections in ("-ffunction-sections", "-fno-function-sections"):
        subprocess.run([*compiler, *flags, sections, "-o", str(built), str(code)], check=True)
        yield sections, built
        if generic:
            names = [f"--redefine-sym={one}=plant::{one}::<#0a1b+8'one::Two{{}}>" for one in ("step", "held")]
            moved = [f"--rename-section=.text.{one}=.text.plant::{one}::<#0a1b+8'one::Two{{}}>" for one in ("step", "held")]
            subprocess.run(["objcopy", *names, *moved, str(built)], check=True)
            yield f"{sections}, generic", built


def archive_plants(folder):
    limits = {"reading": 512, "editing": 768, "grouping": 1024}
    for what, body, group, wanted in ARCHIVE:
        for sections, built in compiled(folder, body, generic=group != "grouping"):
            found = said(lambda: stack_archive.checked(built, {"blorb_read": group}, limits, nested=MAY_RECURSE), stack_archive.Breach)
            judged(f"archive, {what}, {sections}", found, wanted)
    for what, body, inner, kept, wanted in INNER:
        for sections, built in compiled(folder, body):
            found = said(lambda: stack_archive.checked(built, {"blorb_read": "editing"}, limits, inner, kept, MAY_RECURSE), stack_archive.Breach)
            judged(f"archive, a function {what}, {sections}", found, wanted)


def main():
    with tempfile.TemporaryDirectory() as folder:
        source_plants(Path(folder) / "source")
        archive_plants(Path(folder))
    print(f"stack_selftest: ok, {len(SOURCE)} planted sources and {len(ARCHIVE) + len(INNER)} planted archives")


if __name__ == "__main__":
    main()
