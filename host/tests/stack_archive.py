"""The stack of each call in the compiled archive, from its machine code: stack_archive.py ARCHIVE HEADER [--figures FILE].

objdump shows the code. Each function is followed along all of its jumps, with the distance of the stack pointer from where it stood at the function's
entry, and the calls that it makes give the call graph. Refused are: a cycle, but in a grouping call that of NESTED alone; a call through a pointer; a stack
pointer that moves by an amount that is not in the code (alloca); a C function called other than memmove and memset; an array of over 64 bytes in what a
reading or grouping call runs; and a call that takes more than the header's constant of its group.

A call's figure is the bytes below its caller's stack pointer: return address, saved registers and locals on the deepest way down, up to the
return address of a call of memmove or memset. What these two take by themselves belongs to the C library. The functions of NESTED count LEVELS times,
each by the largest distance at which it calls one of them, and the one that goes deepest in full on the last level.
"""
import argparse
import re
import subprocess
import sys
from pathlib import Path

from stack_calls import CALLS, KEPT, LEVELS, MOST_ARRAY, NESTED, SMALL, groups_of_c, limits_of

OUTSIDE = ("memmove", "memset")
RETURN = 8                # bytes of a return address
RED_ZONE = 128            # bytes below the stack pointer that a function may use without moving it
NO_WIDTH = {"lea", "nop", "nopw", "nopl", "data16", "cs", "xchg"}
SUFFIX = {"b": 1, "w": 2, "l": 4, "q": 8}
WIDE = {"movaps": 16, "movups": 16, "movapd": 16, "movupd": 16, "movdqa": 16, "movdqu": 16, "movsd": 8, "movss": 4, "movlps": 8, "movhps": 8}
PREFIXES = ("notrack", "rep", "repz", "repnz", "bnd", "lock")
ON_STACK = re.compile(r"(-?0x[0-9a-f]+)?\(%rsp(,%\w+(?:,\d)?)?\)")


class Breach(Exception):
    """What the archive may not have, in words."""


class Instruction:
    def __init__(self, at, text):
        self.at, self.relocation = at, None
        words = text.split(None, 1)
        self.bulk = words[0].startswith("rep") and len(words) > 1     # fills or copies many bytes
        while words[0] in PREFIXES and len(words) > 1:
            words = words[1].split(None, 1)
        self.name = words[0]
        self.rest = words[1].split(" # ")[0].strip() if len(words) > 1 else ""      # a generic function's name may have a # too

    def __str__(self):
        return f"{self.at:x}: {self.name} {self.rest}"

    def operands(self):
        return [o.strip() for o in re.split(r",(?![^(]*\))", self.rest)] if self.rest else []


def run(*command):
    return subprocess.run(command, check=True, capture_output=True, text=True).stdout


def functions_of(archive):
    """Name to the object and section where it stands and its instructions by address, of every function in the archive."""
    functions, member, section, code, last = {}, None, None, None, None
    for line in run("objdump", "-d", "-r", "--no-show-raw-insn", str(archive)).splitlines():
        if head := re.match(r"(\S.*):\s+file format ", line):
            member = head[1]
        elif head := re.match(r"Disassembly of section (.*):$", line):
            section = head[1]
        elif head := re.match(r"[0-9a-f]+ <(.*)>:$", line):
            if head[1] in functions:
                raise Breach(f"two functions are named {head[1]}")
            code = {}
            functions[head[1]] = (member, section), code
        elif found := re.match(r"\s+([0-9a-f]+):\t([a-z(].*)$", line):
            last = Instruction(int(found[1], 16), found[2].strip())
            code[last.at] = last
        elif found := re.match(r"\s+[0-9a-f]+: (R_X86_64_\w+)\t(\S+)", line):
            last.relocation = found[2]
    return functions


def section_of(relocation):
    """The function or section and the distance that a relocation names."""
    found = re.match(r"(.*?)([+-]0x[0-9a-f]+)?$", relocation)
    return found[1], int(found[2] or "0", 16)


def named(relocation):
    """The same; a section of one function stands for it."""
    name, distance = section_of(relocation)
    return re.sub(r"^\.text\.", "", name), distance


def tables_of(archive):
    """Object and section to its jump table's places: (offset in the section, section of code, distance), as the relocations say."""
    tables, member, section = {}, None, None
    for line in run("objdump", "-r", str(archive)).splitlines():
        if head := re.match(r"(\S.*):\s+file format ", line):
            member = head[1]
        elif head := re.match(r"RELOCATION RECORDS FOR \[(.*)\]:", line):
            section = head[1]
        elif (found := re.match(r"([0-9a-f]+) R_X86_64_PC32 +(\S+)", line)) and section.startswith(".rodata"):
            tables.setdefault((member, section), []).append((int(found[1], 16), *section_of(found[2])))
    return tables


class Function:
    """The stack of one function: `own` bytes besides what it calls, `calls` with the bytes in use at each call."""

    def __init__(self, name, where, code, tables, known):
        self.name, self.code, self.tables, self.known = name, code, tables, known
        self.member, self.section = where
        self.order = sorted(code)
        self.depth, self.calls, self.own = {}, [], 0
        self.loads, self.stores, self.indexed, self.taken = set(), set(), set(), set()
        self.follow()
        self.check_reached()

    def refuse(self, i, why):
        raise Breach(f"{self.name}: {why} ({i})")

    def follow(self):
        after = {a: b for a, b in zip(self.order, self.order[1:])}
        waiting = [(self.order[0], 0)]
        while waiting:
            at, depth = waiting.pop()
            if at in self.depth:
                if self.depth[at] != depth:
                    self.refuse(self.code[at], "reached with two distances of the stack pointer")
                continue
            self.depth[at] = depth
            i = self.code[at]
            behind = self.moved(i, depth)
            self.note(i, depth)
            self.own = max(self.own, depth, behind)
            for target in self.targets(i, behind, after.get(at)):
                if target not in self.code:
                    self.refuse(i, "goes on outside of the function")
                waiting.append((target, behind))

    def moved(self, i, depth):
        """The distance behind the instruction."""
        o = i.operands()
        if i.name in ("push", "pushq"):
            return depth + 8
        if i.name in ("pop", "popq"):
            if o == ["%rsp"]:
                self.refuse(i, "the stack pointer moves by an unknown amount")
            return depth - 8
        if o and o[-1] == "%rsp" and i.name not in ("cmp", "test", "cmpq", "testq"):
            by = re.fullmatch(r"\$(-?0x[0-9a-f]+)", o[0])
            if by and i.name in ("sub", "subq", "add", "addq"):
                amount = int(by[1], 16)
                amount -= 1 << 64 if amount >= 1 << 63 else 0
                return depth + amount if i.name.startswith("sub") else depth - amount
            by = re.fullmatch(r"(-?0x[0-9a-f]+)\(%rsp\)", o[0])
            if by and i.name == "lea":
                return depth - int(by[1], 16)
            self.refuse(i, "the stack pointer moves by an unknown amount")
        if i.name in ("leave", "enter"):
            self.refuse(i, "the stack pointer moves by an unknown amount")
        return depth

    def width(self, i):
        if i.name in WIDE:
            return WIDE[i.name]
        for o in i.operands():
            if re.fullmatch(r"%[xy]mm\d+", o):
                return {"movd": 4, "movq": 8}.get(i.name, 16 if o[1] == "x" else 32)
            if o.startswith("%"):
                name = o[1:]
                if name.endswith("d") and name[1].isdigit() or name.startswith("e"):
                    return 4
                if name.endswith(("b", "l")) and not name.startswith("r") or name.endswith("b"):
                    return 1
                if name.endswith("w") or len(name) == 2 and not name.startswith("r"):
                    return 2
                return 8
        return SUFFIX.get(i.name[-1], 8)

    def note(self, i, depth):
        """What of the frame the instruction touches; places are distances from the stack pointer at the entry, below 0."""
        if i.name in ("push", "pushq"):
            self.stores.update(range(-depth - 8, -depth))
        if i.name in ("pop", "popq"):
            self.loads.update(range(-depth, -depth + 8))
        operands = i.operands()
        for k, o in enumerate(operands):
            found = ON_STACK.search(o)
            if not found:
                continue
            place = int(found[1] or "0", 16) - depth
            if place >= 0 and not found[2]:
                continue                                     # an argument of this call, in its caller's frame
            if place < -depth:
                if place < -depth - RED_ZONE:
                    self.refuse(i, "uses the stack below the red zone")
                self.own = max(self.own, -place)
            if i.name in NO_WIDTH:
                self.taken.add(place)
                continue
            if found[2]:
                self.indexed.add(place)
                continue
            touched = range(place, place + self.width(i))
            last = k == len(operands) - 1
            if not last or not i.name.startswith(("mov", "set")):
                self.loads.update(touched)
            if last and not i.name.startswith(("cmp", "test", "call", "jmp")):
                self.stores.update(touched)

    def targets(self, i, depth, after):
        """Where it goes on within the function; notes calls."""
        if i.name in ("call", "callq"):
            self.calls.append((depth, self.callee(i)))
            return [after] if after is not None else []
        if i.name in ("ret", "retq"):
            if depth != 0:
                self.refuse(i, "returns with something left on the stack")
            return []
        if i.name in ("ud2", "hlt"):
            return []
        if i.name in ("jmp", "jmpq"):
            if i.rest.startswith("*"):
                return self.jump_table(i)
            if i.relocation is not None or self.address(i) not in self.code:
                self.calls.append((depth - RETURN, self.callee(i)))
                return []
            return [self.address(i)]
        if i.name.startswith("j"):
            if i.relocation is not None:
                self.calls.append((depth - RETURN, self.callee(i)))
                return [after]
            return [self.address(i), after]
        return [after] if after is not None else []

    def address(self, i):
        return int(i.rest.split()[0], 16)

    def callee(self, i):
        if i.rest.startswith("*"):
            self.refuse(i, "a call through a pointer")
        if i.relocation is not None:
            name, distance = named(i.relocation)
            if distance not in (-4, 0):
                self.refuse(i, "a call into a function's middle")
        else:
            name = re.search(r"<(.*?)(?:\+0x[0-9a-f]+)?>$", i.rest)[1]
        if name not in self.known and name not in OUTSIDE:
            self.refuse(i, f"calls {name}, which is neither the library's nor one of {', '.join(OUTSIDE)}")
        return name

    def jump_table(self, i):
        """The places of the tables that this function takes addresses of."""
        found = set()
        for other in self.code.values():
            if other.relocation is None or not other.relocation.startswith(".rodata"):
                continue
            section, distance = section_of(other.relocation)
            base = distance + 4
            for offset, code, to in self.tables.get((self.member, section), []):
                if offset >= base and code == self.section:
                    found.add(to - (offset - base))
        if not found:
            self.refuse(i, "a jump through a pointer")
        return sorted(t for t in found if t in self.code)

    def check_reached(self):
        for at in self.order:
            i = self.code[at]
            if at not in self.depth and not i.name.startswith(("nop", "data16", "cs", "xchg", "int3", "ud2")):
                self.refuse(i, "the check has not found the way to this instruction")

    def largest_array(self):
        """
        Bytes of the largest array in the frame, at most. An array is what is reached by an index or by its address. Nothing loads from its
        bytes by their place alone, as is done with a saved register or a single number, so it ends where such a load begins. The first 64 bytes may
        be lent to something else at another time; where the code fills all of these place by place, the array ends where the filling does, or before
        what is lent by itself behind them.
        """
        largest = 0
        for base in self.indexed | self.taken:
            end = base
            if base in self.indexed and all(place in self.stores for place in range(base, base + MOST_ARRAY)):
                end = base + MOST_ARRAY
                while end < 0 and end in self.stores and end not in self.loads and (end not in self.taken or end in self.indexed):
                    end += 1
            else:
                while end < 0 and end not in self.loads:
                    end += 1
            largest = max(largest, end - base)
        return largest


def deepest(functions, nested):
    """Name to the bytes below its caller's stack pointer, and the way down; refuses cycles but among `nested`, which count as one function."""
    depths, nested = {}, frozenset(nested) & functions.keys()

    def once(name, above):
        f = functions[name]
        best, way = f.own, []
        for depth, callee in f.calls:
            if name in nested and callee in nested:
                continue
            below, path = of(callee, [*above, name])
            if depth + below > best:
                best, way = depth + below, path
        return RETURN + best, [name, *way]

    def of(name, above):
        if name in OUTSIDE:
            return RETURN, [name]
        if again := [one for one in above if one == name or {one, name} <= nested]:
            raise Breach("recursion: " + " calls ".join([*above[above.index(again[0]):], name]))
        if name not in depths and name in nested:
            steps = {one: max((RETURN + depth for depth, callee in functions[one].calls if callee in nested), default=0) for one in nested}
            level = sum(steps.values())
            last, way = max((below - steps[one], path) for one in sorted(nested) for below, path in [once(one, above)])
            for one in nested:
                depths[one] = LEVELS * level + last, [f"{LEVELS} levels of up to {level}", *way] if level > 0 else way
        elif name not in depths:
            depths[name] = once(name, above)
        return depths[name]

    for name in functions:
        of(name, [])
    return depths


def reached(functions, name):
    found, waiting = set(), [name]
    while waiting:
        one = waiting.pop()
        if one in found or one in OUTSIDE:
            continue
        found.add(one)
        waiting += [callee for _, callee in functions[one].calls]
    return found


def check_arrays(f, call):
    """What a reading or grouping call runs has no array of over 64 bytes, and nothing that fills or copies more at once."""
    if f.largest_array() > MOST_ARRAY:
        raise Breach(f"{f.name}, which {call} runs: an array of up to {f.largest_array()} bytes; {MOST_ARRAY} are allowed")
    outside = [callee for _, callee in f.calls if callee in OUTSIDE]
    if outside or any(i.bulk for i in f.code.values()):
        raise Breach(f"{f.name}, which {call} runs: fills or copies bytes in bulk, {outside or 'by an instruction'}")


def checked(archive, groups, limits, inner=(), kept=(), nested=NESTED):
    """
    Figure and way down of each call, and of those of `inner` that are there; raises Breach. `inner` are reading and grouping functions that have no C call:
    they are looked at where the compiler has kept them apart, which it must have done with those of `kept`. `nested` are the functions that may call
    each other, in grouping calls.
    """
    code, tables = functions_of(archive), tables_of(archive)
    functions = {name: Function(name, where, lines, tables, code) for name, (where, lines) in code.items()}
    depths = deepest(functions, nested)
    for name in kept:
        if name not in functions:
            raise Breach(f"the archive has no {name} apart from what calls it, so its code cannot be looked at")
    found = [name for name in inner if name in functions]
    for name in found:
        for below in sorted(reached(functions, name)):
            check_arrays(functions[below], name)
    for name, group in groups.items():
        if name not in functions:
            raise Breach(f"the archive has no {name}")
        if group in SMALL:
            for below in sorted(reached(functions, name)):
                check_arrays(functions[below], name)
        met = {one for one in nested & reached(functions, name) if nested & {callee for _, callee in functions[one].calls}}
        if group != "grouping" and met:
            raise Breach(f"recursion: {name}, which runs {', '.join(sorted(met))}")
        if depths[name][0] > limits[group]:
            raise Breach(f"{name}: {depths[name][0]} bytes of stack by {' > '.join(depths[name][1])}; the header allows {limits[group]}")
    return {name: depths[name] for name in groups}, {name: depths[name] for name in found}


def exported(archive):
    return set(re.findall(r" T (\w+)$", run("nm", str(archive)), re.MULTILINE))


def main():
    options = argparse.ArgumentParser()
    options.add_argument("archive", type=Path)
    options.add_argument("header", type=Path)
    options.add_argument("--figures", type=Path)
    given = options.parse_args()
    groups = groups_of_c()
    if exported(given.archive) != set(groups):
        sys.exit(f"stack_archive: stack_calls.py has not the archive's calls: {exported(given.archive) ^ set(groups)}")
    try:
        inner = [source for group, c, source in CALLS if c is None and group in SMALL]
        figures, apart = checked(given.archive, groups, limits_of(given.header.read_text()), inner, KEPT)
    except Breach as breach:
        sys.exit(f"stack_archive: {breach}")
    lines = [f"{name} {depth}" for name, (depth, _) in figures.items()]
    if given.figures:
        given.figures.write_text("\n".join(lines) + "\n")
    for name, (depth, way) in figures.items():
        print(f"  {name:22} {depth:5}  {' > '.join(way)}")
    for name in inner:
        found = f"{apart[name][0]:5}  no C call; found" if name in apart else "       no C call; not in the archive, so its source alone is looked at"
        print(f"  {name:22} {found}")
    print(f"stack_archive: ok, {len(figures)} calls and {len(apart)} of {len(inner)} functions without one")


if __name__ == "__main__":
    main()
