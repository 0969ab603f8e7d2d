"""Recursion and arrays in the source: stack_source.py ROOT.

Reads crates/*/src/*.rt and goes from each call of stack_calls.py, which has every public function of the crates that it names, through all functions
that the call can reach. Refused are: a cycle, but in a grouping call that of NESTED alone; in a reading or grouping call an array of over 64 bytes; in
any other arrays of more bytes on one way down than stack_calls.py allows its group, counted as if the compiler left all of them in and those of NESTED
on each level; and what the check cannot judge, as a function that it does not find or an array whose length is no plain number.

What a function calls. A method is that of the receiver's type where the type can be told: of `self`, a parameter, a local that is bound once, a field, a
constant, what a call gives back. Otherwise, as of a type parameter, it is taken to be every method of that name, of the library too. A function that is named
without a call, as in `rows.all(row_good)`, counts as called there. So do the calls within a closure, where the closure stands; what calls a parameter is
refused. A `?` calls the `from` of the error that the function gives back. Of Rust's own library only what STD_METHODS and STD_FUNCTIONS name may be called:
it holds no array of its own but GIVES_BYTES, and calls nothing but what it is given. A trait of an operator, a loop or a drop may not be implemented by hand.

What a function holds. An array is a type [T; N] or a value [x; N], [a, b] or *b"..", also within a structure that the function names, takes or is given
by what it calls; behind a & it is the lender's. An element whose type cannot be told counts 8 bytes. Taken on trust is that a compiler makes three things in
place: a structure that a function gives back, which is its caller's, an array that is a field of a structure's literal, and one that is assigned to what
is lent, as in `*marks = [0; 896];`. What it made of them stack_archive.py sees.
"""
import re
import sys
from pathlib import Path

from stack_calls import CALLS, LEVELS, MOST_ARRAY, MOST_IN_SOURCE, NESTED, SMALL

SIZES = {"u8": 1, "i8": 1, "bool": 1, "u16": 2, "i16": 2, "u32": 4, "i32": 4, "char": 4, "f32": 4,
         "u64": 8, "i64": 8, "usize": 8, "isize": 8, "f64": 8, "u128": 16, "i128": 16}
UNKNOWN_SIZE = 8
# Of Rust's own library: methods of numbers, slices, iterators, Option and Result, functions of numbers' types, and macros.
STD_METHODS = {"all", "any", "checked_add", "checked_mul", "checked_shl", "checked_sub", "chunks_exact", "cmp", "contains", "copied", "copy_from_slice",
               "copy_within", "count", "div_ceil", "enumerate", "fill", "fold", "get", "get_mut", "is_empty", "is_err", "is_none", "is_ok", "is_some", "iter",
               "iter_mut", "len", "map", "max", "min", "next", "ok", "ok_or", "position", "rev", "saturating_add", "saturating_sub", "skip", "split_at",
               "take", "then_some", "to_be_bytes", "unwrap_or", "zip"}
STD_FUNCTIONS = {"from", "from_be_bytes", "try_from"}
MACROS = {"matches"}
GIVES_BYTES = {"to_be_bytes": 16}                            # an array of its own, at most as long as the longest number
SAME_KIND = {"rev", "skip", "take"}                          # their answer is of the receiver's kind, which is the library's
DERIVED = {"clone", "cmp", "eq", "ne", "partial_cmp", "lt", "le", "gt", "ge", "min", "max"}
# Traits whose methods are called without a word of them in the source.
UNSEEN = {"Add", "AddAssign", "BitAnd", "BitAndAssign", "BitOr", "BitOrAssign", "BitXor", "BitXorAssign", "Deref", "DerefMut", "Div", "DivAssign", "Drop",
          "Index", "IndexMut", "IntoIterator", "Iterator", "Mul", "MulAssign", "Neg", "Not", "Ord", "PartialEq", "PartialOrd", "Rem", "RemAssign", "Shl",
          "ShlAssign", "Shr", "ShrAssign", "Sub", "SubAssign"}
WORDS = {"if", "while", "match", "return", "let", "else", "in", "as", "loop", "for", "break", "mut", "ref", "move", "unsafe", "pub", "where", "fn", "continue"}
TOKEN = re.compile(r"""b"(?:[^"\\]|\\.)*" | "(?:[^"\\]|\\.)*" | '\w+'? | [A-Za-z_]\w*(?:::[A-Za-z_]\w*)* | 0x[0-9a-fA-F_]+\w* | \d[\d_]*\w* |
                       :: | -> | => | <= | >= | == | != | && | \|\| | \.\. | [^\s\w]""", re.VERBOSE)
PAIRS = {"(": ")", "[": "]", "{": "}"}
# What a value can be: a number of a type, a slice or array of a kind, an Option or Result of a kind, something else of Rust's own; or a type of the crates.
OTHER = ("other", None)


class Breach(Exception):
    """What the source may not have, in words."""


def tokens_of(text):
    """The tokens of the code: without comments, contracts, attributes, lifetimes and what is there for proofs only."""
    found = TOKEN.findall(re.sub(r"//[^\n]*", "", text))
    found = [one for one in found if not re.fullmatch(r"'\w+", one)]
    kept, k = [], 0
    while k < len(found):
        word = found[k]
        named = k + 2 < len(found) and re.match(r"[A-Za-z_]", found[k + 1]) and found[k + 2] == "{"
        if word in ("requires", "ensures") and (found[k + 1] == "{" or named):
            k = closing(found, k + (2 if named else 1)) + 1
        elif word == "#" and (found[k + 1] == "[" or found[k + 1:k + 3] == ["!", "["]):
            k = closing(found, found.index("[", k)) + 1
        elif word == "ghost":
            if kept[-1:] == ["pub"]:
                kept.pop()
            k = ghost_end(found, k + 1)
        else:
            kept.append(word)
            k += 1
    return kept


def ghost_end(tokens, k):
    """The place behind a ghost item, statement or field."""
    while k < len(tokens) and tokens[k] not in PAIRS.values():
        if tokens[k] in PAIRS:
            k = closing(tokens, k)
        elif tokens[k] in (";", ","):
            return k + 1
        k += 1
    return k


def closing(tokens, k):
    """The place of the bracket that closes the one at k."""
    depth = 0
    begin, end = tokens[k], PAIRS[tokens[k]]
    for at in range(k, len(tokens)):
        depth += (tokens[at] == begin) - (tokens[at] == end)
        if depth == 0:
            return at
    raise Breach(f"no {end} for {' '.join(tokens[k:k + 6])}")


def opening(tokens, k):
    """The place of the bracket that the one at k closes."""
    depth = 0
    end = tokens[k]
    begin = next(b for b, e in PAIRS.items() if e == end)
    for at in range(k, -1, -1):
        depth += (tokens[at] == end) - (tokens[at] == begin)
        if depth == 0:
            return at
    raise Breach(f"nothing opens {' '.join(tokens[max(k - 6, 0):k + 1])}")


def angle_end(tokens, k):
    """The place behind the generics that begin at k, if they do."""
    if tokens[k:k + 1] != ["<"]:
        return k
    depth = 0
    for at in range(k, len(tokens)):
        depth += (tokens[at] == "<") - (tokens[at] == ">")
        if depth == 0:
            return at + 1
    raise Breach(f"no > for {' '.join(tokens[k:k + 6])}")


def parts_of(tokens, mark, types=False):
    """The tokens between the marks that stand in no bracket; of types, in no generics either."""
    parts, part, k = [], [], 0
    while k < len(tokens):
        end = k
        if tokens[k] in PAIRS:
            end = closing(tokens, k)
        elif types and tokens[k] == "<":
            end = angle_end(tokens, k) - 1
        elif tokens[k] == mark:
            parts.append(part)
            part = []
            k += 1
            continue
        part += tokens[k:end + 1]
        k = end + 1
    return [*parts, part]


def until(tokens, k, marks):
    """The first place from k on that has one of the marks and stands in no bracket."""
    while k < len(tokens) and tokens[k] not in marks:
        k = closing(tokens, k) + 1 if tokens[k] in PAIRS else k + 1
    return k


def is_name(token):
    """A local or field: one word of small letters."""
    return bool(re.fullmatch(r"[a-z_]\w*", token)) and token not in WORDS


class Function:
    """A function or method: where it stands, what it takes and gives back, its code."""

    def __init__(self, name, module, scope, trait, head, body):
        self.name, self.module, self.scope, self.trait, self.body = name, module, scope, trait, body
        begin = angle_end(head, 0)
        end = closing(head, begin)
        self.takes = [part for part in parts_of(head[begin + 1:end], ",", types=True) if part]
        self.gives = head[end + 2:until(head, end, ["where"])] if head[end + 1:end + 2] == ["->"] else []
        self.is_method = scope != module


class Source:
    """Every function, structure and constant of the crates, by its path."""

    def __init__(self, crates):
        self.functions, self.types, self.traits, self.constants, self.uses = {}, {}, set(), {}, {}
        self.foreign = set()                                 # methods that a crate puts on a type which is not the crates'
        self.public = set()                                  # for users: in a crate's root, and for C in any module
        self.kinds, self.known_calls = {}, {}
        files, self.modules, self.sees = [], set(), {}
        self.crates = {p.name for p in crates.iterdir() if (p / "src").is_dir()}
        for crate in sorted(self.crates):
            for path in sorted((crates / crate / "src").glob("*.rt")):
                module = crate if path.stem in ("lib", "main") else f"{crate}::{path.stem}"
                self.modules.add(module)
                files.append((module, tokens_of(path.read_text())))
        impls = []
        for module, tokens in files:
            named = {word.split("::")[0] for word in tokens if re.match(r"[A-Za-z_]", word)}
            self.sees.setdefault(module.split("::")[0], set()).update(named & self.crates)
            self.items(tokens, module, module, impls=impls)
        for module, header, body in impls:
            self.implemented(module, header, body)
        for _ in self.crates:
            for seen in self.sees.values():
                seen.update(*[self.sees[one] for one in seen])

    def items(self, tokens, module, scope, trait=None, impls=None):
        k = 0
        while k < len(tokens):
            word = tokens[k]
            if word == "use":
                end = tokens.index(";", k)
                for path, name in self.brought_in(tokens[k + 1:end]):
                    self.uses[module, name] = self.absolute(path, module)
                k = end
            elif word == "const" and tokens[k + 1] != "fn":
                end = until(tokens, k, [";"])
                self.constants[f"{scope}::{tokens[k + 1]}"] = (module, scope, tokens[k + 3:end])
                k = end
            elif word in ("struct", "enum"):
                begin = next(j for j in range(k, len(tokens)) if tokens[j] in "{(;")
                end = begin if tokens[begin] == ";" else closing(tokens, begin)
                self.types[f"{scope}::{tokens[k + 1]}"] = (module, word, tokens[begin:end + 1])
                k = end
            elif word in ("impl", "trait") and impls is not None:
                begin = tokens.index("{", k)
                end = closing(tokens, begin)
                if word == "impl":
                    impls.append((module, tokens[angle_end(tokens, k + 1):begin], tokens[begin + 1:end]))
                else:
                    self.traits.add(f"{module}::{tokens[k + 1]}")
                    self.items(tokens[begin + 1:end], module, f"{module}::{tokens[k + 1]}", tokens[k + 1])
                k = end
            elif word in ("macro_rules", "static", "type") and trait is None:
                raise Breach(f"{module}: {word}, which this check does not follow")
            elif word == "fn":
                begin = until(tokens, k, ["{", ";"])
                end = closing(tokens, begin) if tokens[begin] == "{" else begin
                if tokens[begin] == "{":
                    self.function(tokens, k, begin, end, module, scope, trait)
                k = end
            k += 1

    def function(self, tokens, k, begin, end, module, scope, trait):
        path = name = f"{scope}::{tokens[k + 1]}"
        while name in self.functions:                        # one trait, implemented of several types for this one
            name += "'"
        self.functions[name] = Function(name, module, scope, trait, tokens[k + 2:begin], tokens[begin:end + 1])
        if tokens[k - 1:k] == ["pub"] and "::" not in scope or tokens[k - 3:k] == ["pub", "extern", '"C"']:
            self.public.add(path)

    def implemented(self, module, header, body):
        """What an `impl` has, under the path of its type."""
        header = header[:until(header, 0, ["where"])]
        trait = header[0].split("::")[-1] if "for" in header else None
        if trait in UNSEEN:
            raise Breach(f"{module}: an impl of {trait}, whose calls this check does not see")
        written = header[header.index("for") + 1:] if trait else header
        written = [one for one in written if one not in ("&", "mut")]
        found = self.find(self.types, written[0], module, module) if re.match(r"[A-Za-z_]", written[0]) else None
        before = set(self.functions)
        self.items(body, module, found or f"{module}::{written[0]}", trait)
        if found is None:
            self.foreign |= self.functions.keys() - before

    def brought_in(self, tokens):
        """The paths of a `use` and the names that they get: one, or those in braces behind what they share."""
        if "{" not in tokens:
            path, _, name = " ".join(tokens).partition(" as ")
            path = path.replace(" ", "")
            return [(path, name or path.split("::")[-1])]
        begin = tokens.index("{")
        return [one for part in parts_of(tokens[begin + 1:closing(tokens, begin)], ",") if part for one in self.brought_in(tokens[:begin] + part)]

    def absolute(self, path, module):
        first, *rest = path.split("::")
        crate = module.split("::")[0]
        if first == "crate":
            return "::".join([crate, *rest])
        if first in ("self", "super"):
            raise Breach(f"{module}: a path from {first}, which this check does not follow")
        if f"{module}::{first}" in self.modules and first not in self.crates:
            return f"{module}::{path}"
        return path

    def meanings(self, path, module, scope):
        """What a path in this module may stand for, as paths from a crate on."""
        first, *rest = path.split("::")
        if first == "Self":
            return ["::".join([scope, *rest])]
        if path == "self":
            return []
        found = [self.absolute(path, module), f"{module}::{path}"]
        if (module, first) in self.uses:
            found.insert(0, "::".join([self.uses[module, first], *rest]))
        return found

    def for_c(self, name):
        """The path of a C function, in the root of the crate capi or in one of its modules."""
        return next((f for f in self.functions if f.startswith("capi::") and f.endswith("::" + name)), f"capi::{name}")

    def find(self, table, path, module, scope):
        for one in self.meanings(path, module, scope):
            for _ in range(8):                               # a `pub use` may hand on what another one has
                if one in table:
                    return one
                parts = one.split("::")
                cut = next((k for k in range(1, len(parts)) if ("::".join(parts[:k]), parts[k]) in self.uses), None)
                if cut is None:
                    break
                one = "::".join([self.uses["::".join(parts[:cut]), parts[cut]], *parts[cut + 1:]])
        return None

    # Kinds of values

    def kind_of_type(self, tokens, module, scope):
        """The kind of a type that is written out; None where it cannot be told."""
        while tokens and tokens[0] in ("&", "mut"):
            tokens = tokens[1:]
        if not tokens:
            return OTHER
        if tokens[0] == "[":
            return "slice", self.kind_of_type(parts_of(tokens[1:closing(tokens, 0)], ";")[0], module, scope)
        if tokens[0] in SIZES:
            return "number", tokens[0]
        if tokens[0] in ("Option", "Result"):
            return "maybe", self.kind_of_type(parts_of(tokens[2:angle_end(tokens, 1) - 1], ",", types=True)[0], module, scope)
        if tokens[0] == "(" or tokens[0] == "str":
            return OTHER
        found = self.find(self.types, tokens[0], module, scope) if re.match(r"[A-Za-z_]", tokens[0]) else None
        return found and ("own", found)

    def locals_of(self, function):
        """
        The kind of each name that the function binds: None where it cannot be told, or where names of two kinds are the same. Apart from these: the
        parameters, and the closures.
        """
        module, scope, body = function.module, function.scope, function.body
        kinds, takes, closures = {}, set(), set()

        def bind(name, kind):
            kinds[name] = kind if name not in kinds or kinds[name] == kind else None

        def bind_all(pattern):
            for j, one in enumerate(pattern):
                if is_name(one) and one != "self" and pattern[j + 1:j + 2] not in ([":"], ["("], ["::"]):
                    bind(one, None)

        for part in function.takes:
            if ":" in part:
                cut = part.index(":")
                takes |= {one for one in part[:cut] if is_name(one)}
                bind(part[cut - 1], self.kind_of_type(part[cut + 1:], module, scope)) if cut < 3 else bind_all(part[:cut])
            elif "self" in part:
                bind("self", ("own", scope) if scope in self.types else None)
        for k, word in enumerate(body):
            if word == "let":
                end = until(body, k, ["=", ";"])
                pattern, *typed = parts_of([one for one in body[k + 1:end] if one not in ("mut", "ref")], ":")
                value = body[end + 1:until(body, end, [";", "else"])] if body[k - 1] not in ("if", "while", "&&") else body[end + 1:until(body, end, ["{"])]
                if len(pattern) == 1 and is_name(pattern[0]):
                    if value[:1] in (["|"], ["move"], ["||"]):
                        closures.add(pattern[0])
                    bind(pattern[0], self.kind_of_type(typed[0], module, scope) if typed else self.kind(value, function, kinds))
                elif len(pattern) == 4 and pattern[0] in ("Some", "Ok") and is_name(pattern[2]):
                    kind = self.kind(value, function, kinds)
                    bind(pattern[2], kind[1] if kind and kind[0] == "maybe" else None)
                else:
                    bind_all(pattern)
            elif word == "for":
                bind_all(body[k + 1:body.index("in", k)])
            elif word == "|" and body[k - 1] in ("(", ",", "=", "=>", "return", "move", "{", ";"):
                bind_all(body[k + 1:body.index("|", k + 1)])
            elif word == "=>":
                bind_all(self.pattern_before(body, k))
        return kinds, takes, closures

    @staticmethod
    def pattern_before(body, k):
        """The pattern of the arm whose arrow stands at k, without its guard."""
        begin = k
        while body[begin - 1] not in (",", "{", "=>"):
            if body[begin - 1] == "}" and (re.match(r"\w", body[begin]) or body[begin] in ("(", "[", "&")) and begin < k:
                break                                        # the block of the arm before
            begin = opening(body, begin - 1) if body[begin - 1] in PAIRS.values() else begin - 1
        return body[begin:until(body, begin, ["if", "=>"])]

    def kind(self, tokens, function, kinds):
        """The kind of an expression, where it is a name, a call, a literal, and fields, places, methods and `?` behind them."""
        module, scope = function.module, function.scope
        while tokens and tokens[0] in ("&", "mut", "*"):
            tokens = tokens[1:]
        if not tokens:
            return None
        word, after, k = tokens[0], tokens[1:2], 1
        if word == "(":
            k = closing(tokens, 0) + 1
            found = self.kind(tokens[1:k - 1], function, kinds)
        elif word == "[":
            k = closing(tokens, 0) + 1
            found = "slice", self.kind(parts_of(parts_of(tokens[1:k - 1], ";")[0], ",")[0], function, kinds)
        elif re.match(r"\d", word):
            suffix = re.search(r"(?:[ui](?:8|16|32|64|128|size))$", word)
            found = ("number", suffix[0]) if suffix and (not word.startswith("0x") or suffix[0][0] in "ui") else None
        elif not re.match(r"[A-Za-z_]", word) or word in WORDS or word.startswith('b"') or after == ["!"]:
            return None
        elif after == ["("]:
            k = closing(tokens, 1) + 1
            first, _, last = word.rpartition("::")
            if word in ("Some", "Ok"):
                found = "maybe", self.kind(tokens[2:k - 1], function, kinds)
            elif first in SIZES and last in ("from", "from_be_bytes"):
                found = "number", first
            else:
                found = self.given(self.called(word, module, scope))
        elif after == ["{"] and (own := self.find(self.types, word, module, scope)):
            k, found = closing(tokens, 1) + 1, ("own", own)
        elif word in kinds:
            found = kinds[word]
        elif constant := self.find(self.constants, word, module, scope):
            where, whose, value = self.constants[constant]
            found = self.kind_of_type(value[:value.index("=")], where, whose)
        else:
            return None
        return self.kind_behind(tokens, k, found, function, kinds)

    def kind_behind(self, tokens, k, found, function, kinds):
        while k < len(tokens):
            word = tokens[k]
            if word == "." and tokens[k + 2:k + 3] == ["("]:
                found = self.kind_by_method(found, tokens[k + 1], function)
                k = closing(tokens, k + 2) + 1
            elif word == ".":
                found, k = self.kind_of_field(found, tokens[k + 1]), k + 2
            elif word == "?":
                found, k = found[1] if found and found[0] == "maybe" else None, k + 1
            elif word == "[":
                end = closing(tokens, k)
                if ".." not in tokens[k:end]:
                    found = found[1] if found and found[0] == "slice" else None
                k = end + 1
            elif word == "as":
                found, k = self.kind_of_type(tokens[k + 1:k + 2], function.module, function.scope), k + 2
            else:
                return None
        return found

    def kind_of_field(self, kind, field):
        return self.kind_of_type(*written) if (written := self.type_of_field(kind, field)) else None

    def type_of_field(self, kind, field):
        """The type of a field as it is written, and where; None where it cannot be told."""
        if kind is None or kind[0] != "own":
            return None
        module, _, body = self.types[kind[1]]
        for part in parts_of(body[1:-1], ",", types=True):
            if ":" in part and part[part.index(":") - 1] == field:
                return part[part.index(":") + 1:], module, kind[1]
        return None

    def kind_by_method(self, kind, word, function):
        if kind and kind[0] == "own":
            return self.given(self.methods(kind, word, function))
        if kind is None or kind[0] not in ("slice", "maybe", "number", "other"):
            return None
        if word in ("len", "count", "saturating_sub", "saturating_add", "div_ceil"):
            return ("number", "usize") if word in ("len", "count") else kind
        if word in SAME_KIND or word == "ok" and kind[0] == "maybe":
            return kind
        if word in ("ok_or", "position", "get", "get_mut", "next", "copied"):
            return None
        return OTHER if word in ("iter", "iter_mut", "chunks_exact", "enumerate", "zip", "is_some", "is_none", "is_ok", "is_err", "is_empty") else None

    def given(self, functions):
        """The kind of what these functions give back, where it is one."""
        found = {self.kind_of_type(f.gives, f.module, f.scope) for f in map(self.functions.get, functions)}
        return found.pop() if len(found) == 1 else None

    # What is called

    def called(self, path, module, scope):
        """The functions that this path may stand for."""
        name = self.find(self.functions, path, module, scope)
        found = []
        while name in self.functions:
            found.append(name)
            name += "'"
        return found

    def methods(self, kind, word, function):
        """The methods that a call of this name may run on a receiver of this kind."""
        if kind and kind[0] == "own" and (found := self.called(f"{kind[1]}::{word}", function.module, function.scope)):
            return found
        crate = function.module.split("::")[0]
        seen = self.sees[crate] | {crate}
        every = [name for name, one in self.functions.items() if one.is_method and name.rstrip("'").endswith("::" + word)
                 and (one.trait or one.module.split("::")[0] in seen)]
        if kind and kind[0] == "own":
            every = [name for name in every if self.functions[name].scope in self.traits]
            known = word in DERIVED
        else:
            every = [name for name in every if kind is None or name in self.foreign]
            known = word in STD_METHODS
        if not every and not known:
            raise Breach(f"{function.name}: the method {word}, which this check does not know")
        return every

    def receiver(self, body, k):
        """The tokens of what stands before the dot at k."""
        begin = k
        while True:
            word = body[begin - 1]
            if word == "?":
                begin -= 1
            elif word in (")", "]"):
                begin = opening(body, begin - 1)
                if body[begin - 1] in ("!", "}"):
                    return []
                if not (re.match(r"\w", body[begin - 1]) and body[begin - 1] not in WORDS) and body[begin - 1] not in (")", "]", "?"):
                    return body[begin:k]
            elif re.match(r"\w", word):
                begin -= 1
                if body[begin - 1] != ".":
                    return body[begin:k]
                begin -= 1
            else:
                return []

    def calls(self, name):
        """The functions that this one calls."""
        if name not in self.known_calls:
            self.known_calls[name] = self.calls_in(self.functions[name])
        return self.known_calls[name]

    def calls_in(self, function):
        name, module, scope, body = function.name, function.module, function.scope, function.body
        kinds, takes, closures = self.kinds[name] = self.locals_of(function)
        found = set()
        for k, word in enumerate(body[:-1]):
            if word in (")", "]") and body[k + 1] == "(":
                raise Breach(f"{name}: a call of what an expression gives, which this check does not follow")
            if word == "?":
                found.update(self.conversions(function))
            if not re.match(r"[A-Za-z_]", word) or word in WORDS or word.startswith('b"'):
                continue
            if body[k + 1] == "!" and body[k + 2] in PAIRS:
                if word not in MACROS:
                    raise Breach(f"{name}: the macro {word}!, which this check does not know")
            elif body[k - 1] == ".":
                if body[k + 1] == "(":
                    found.update(self.methods(self.kind(self.receiver(body, k - 1), function, kinds), word, function))
                elif body[k + 1] == "::":
                    raise Breach(f"{name}: the method {word} with types, which this check does not follow")
            elif word in takes or word.split("::")[-1][0].isupper() or body[k + 1] == ":":
                if word in takes and body[k + 1] == "(":
                    raise Breach(f"{name}: calls its parameter {word}, which this check does not follow")
            else:
                called = self.called(word, module, scope)
                if any(self.functions[one].scope in self.traits for one in called):
                    raise Breach(f"{name}: calls {word} by its trait, which this check does not follow")
                first, _, last = word.rpartition("::")
                if body[k + 1] in ("(", "::") and not called and word not in closures and not (first in SIZES and last in STD_FUNCTIONS):
                    raise Breach(f"{name}: calls {word}, which this check does not find")
                found.update(called)
        return found

    def conversions(self, function):
        """What a `?` may call: the `from` of the error that the function gives back."""
        if function.gives[:1] not in (["Option"], ["Result"]):
            raise Breach(f"{function.name}: a ? where neither an Option nor a Result is given back by name")
        error = parts_of(function.gives[2:-1], ",", types=True)[-1]
        return self.called(f"{error[0]}::from", function.module, function.scope) if function.gives[0] == "Result" else []

    # What is held

    def number(self, tokens, module, scope):
        """The length that stands in an array's type or value."""
        if len(tokens) == 1 and re.match(r"\d", tokens[0]):
            return int(re.sub(r"_|(usize|u\d+|i\d+)$", "", tokens[0]), 0)
        if len(tokens) == 1 and (constant := self.find(self.constants, tokens[0], module, scope)):
            where, whose, value = self.constants[constant]
            return self.number(value[value.index("=") + 1:], where, whose)
        raise Breach(f"{module}: an array's length that is no plain number: {' '.join(tokens)}")

    def size(self, tokens, module, scope, function=None):
        """Bytes of an element by its type or its value."""
        if tokens and tokens[0] == "[":
            return sum(self.arrays(tokens, module, scope, function=function)[-1:])
        if tokens and tokens[0] == "&":
            return 2 * UNKNOWN_SIZE
        if tokens and tokens[0] == "(" and closing(tokens, 0) == len(tokens) - 1:
            return sum(max(self.size(part, module, scope, function), 1) for part in parts_of(tokens[1:-1], ","))
        if len(tokens) == 1:
            if tokens[0] in SIZES:
                return SIZES[tokens[0]]
            if tokens[0] in ("true", "false"):
                return SIZES["bool"]
            if suffix := re.fullmatch(r"(?:0x[0-9a-fA-F_]+?|\d[\d_]*?)(u8|u16|u32|u64|u128|usize|i8|i16|i32|i64|i128|isize)", tokens[0]):
                return SIZES[suffix[1]]
            if kind := self.find(self.types, tokens[0], module, scope):
                return self.size_of_type(kind)
        if function is not None and (kind := self.kind(tokens, function, self.kinds[function.name][0])):
            if kind[0] == "number":
                return SIZES[kind[1]]
            if kind[0] == "own":
                return self.size_of_type(kind[1])
            if kind[0] != "other":
                raise Breach(f"{function.name}: an element whose size this check does not know: {' '.join(tokens)}")
        if function is None:
            raise Breach(f"{module}: an element whose type this check does not know: {' '.join(tokens)}")
        return UNKNOWN_SIZE

    def size_of_type(self, kind):
        """Bytes of a structure or enum, at most: all of its fields, each on 8 bytes, and 8 more."""
        module, word, body = self.types[kind]
        total, k = UNKNOWN_SIZE, 1
        for part in parts_of(body[1:-1], ",", types=True):
            if word == "enum" and not any(one in PAIRS for one in part):
                continue                                     # a variant without a field
            inner = next((parts_of(part[j + 1:closing(part, j)], ",", types=True) for j in range(len(part)) if part[j] in "({"), [part])
            for field in [part] if word == "struct" and ":" in part else inner:
                written = field[field.index(":") + 1:] if ":" in field else field
                total += -(-max(self.size(written, module, kind), k) // 8) * 8 if written else 0
        return total

    def arrays(self, tokens, module, scope, lent=False, function=None):
        """Bytes of each array in these tokens, inner ones first; with `lent`, without those behind a &."""
        found = []
        for k, word in enumerate(tokens):
            before = tokens[k - 1] if k > 0 else ""
            if word.startswith('b"') and before == "*":
                found += self.beyond_field(len(eval(word)), tokens, k - 1, module, scope)
            if word != "[" or re.match(r"[\w\])?]", before) and before not in WORDS:
                continue                                     # a place in something that is there
            if lent and (before == "&" or before == "mut" and tokens[k - 2] == "&"):
                continue
            inside = tokens[k + 1:closing(tokens, k)]
            halves = parts_of(inside, ";")
            if len(halves) == 2:
                size = self.size(halves[0], module, scope, function) * self.number(halves[1], module, scope)
            elif before not in ("&", "mut") or "," in inside:
                size = self.listed([part for part in parts_of(inside, ",") if part], module, scope, function)
            else:
                continue
            if before == "=" and tokens[k - 3] == "*" and tokens[k - 4] in (";", "{", "}"):
                continue                                     # made where it is assigned to
            found += self.beyond_field(size, tokens, k, module, scope) if function else [size]
        return found

    def beyond_field(self, size, tokens, k, module, scope):
        """The array of this size whose value begins at k, but not where it is a field of a structure that has it."""
        if tokens[k - 1] == ":":
            begin = k - 1
            while tokens[begin] != "{" and begin > 0:
                begin = opening(tokens, begin) - 1 if tokens[begin] in PAIRS.values() else begin - 1
            kind = self.find(self.types, tokens[begin - 1], module, scope) if re.match(r"[A-Za-z_]", tokens[begin - 1]) else None
            if kind and (written := self.type_of_field(("own", kind), tokens[k - 2])) and (declared := self.arrays(*written)):
                if re.fullmatch(r"\d[\d_]*", tokens[k + 1]):  # of numbers without a type, the field tells it
                    size = size // UNKNOWN_SIZE * self.size(parts_of(written[0][1:-1], ";")[0], *written[1:])
                if size <= declared[-1]:
                    return []
        return [size]

    def listed(self, parts, module, scope, function=None):
        """Bytes of an array that is written out. Of plain numbers the one that names its type tells it for all."""
        sizes = [self.size(part, module, scope, function) for part in parts]
        if sizes and all(len(part) == 1 and re.match(r"\d", part[0]) for part in parts):
            return min(sizes) * len(sizes)
        return sum(sizes)

    def arrays_of_type(self, kind, within=()):
        """Bytes of each array in a structure or enum, and in those that it has."""
        module, _, body = self.types[kind]
        return self.arrays(body, module, kind, lent=True) + self.arrays_named(body, module, kind, (*within, kind))

    def arrays_named(self, tokens, module, scope, within=()):
        """Bytes of each array in the structures that these tokens name, but those behind a &."""
        found, kinds = [], set()
        for k, word in enumerate(tokens):
            if not re.match(r"[A-Za-z_]", word) or word.startswith('b"') or tokens[k - 1:k] == ["&"] or tokens[max(k - 2, 0):k] == ["&", "mut"]:
                continue
            kinds |= {kind for path in {word, word.rpartition("::")[0]} - {""} if (kind := self.find(self.types, path, module, scope))}
        for kind in sorted(kinds - set(within)):
            found += self.arrays_of_type(kind, within)
        return found

    def given_back(self, function):
        """Bytes of each array in what the function gives back."""
        return (self.arrays(function.gives, function.module, function.scope, lent=True)
                + self.arrays_named(function.gives, function.module, function.scope))

    def held(self, name):
        """Bytes of each array that the function may have on its stack."""
        function = self.functions[name]
        module, scope, body = function.module, function.scope, function.body
        called = sorted(self.calls(name))
        found = self.arrays(body, module, scope, function=function)
        own = {kind for word in function.gives if re.match(r"[A-Za-z_]", word) and (kind := self.find(self.types, word, module, scope))}
        for part in function.takes:
            written = part[part.index(":") + 1:] if ":" in part else ["Self"] if part in (["self"], ["mut", "self"]) else []
            found += self.arrays(written, module, scope, lent=True) + self.arrays_named(written, module, scope)
        found += self.arrays_named(body, module, scope, own)
        for callee in called:
            one = self.functions[callee]
            found += self.arrays(one.gives, one.module, one.scope, lent=True)
            found += self.arrays_named(one.gives, one.module, one.scope, own | self.kinds_in(body, module, scope))
        for k, word in enumerate(body):
            if re.match(r"[A-Za-z_]", word) and (constant := self.find(self.constants, word, module, scope)):
                where, whose, value = self.constants[constant]
                found += self.arrays(value[:value.index("=")], where, whose)
            if word in GIVES_BYTES and body[k - 1] == ".":
                found.append(GIVES_BYTES[word])
            if word == "*" and (not re.match(r"[\w\])?]", body[k - 1]) or body[k - 1] in WORDS) or word == "let":
                found += self.copied(function, body, k)
        return found

    def kinds_in(self, tokens, module, scope):
        """The structures that these tokens name."""
        return {kind for word in tokens if re.match(r"[A-Za-z_]", word) and not word.startswith('b"')
                for path in {word, word.rpartition("::")[0]} - {""} if (kind := self.find(self.types, path, module, scope))}

    def copied(self, function, body, k):
        """Bytes of each array in what is copied out of what is lent, as by `*usage` or `let keys = self.keys`; k is the place of the star or the let."""
        begin = k + 1 if body[k] == "*" else until(body, k, ["=", ";"]) + 1
        end = begin
        while re.match(r"[A-Za-z_]", body[end]) and body[end] not in WORDS and body[end + 1] == ".":
            end += 2
        if not (is_name(body[end]) or body[end] == "self") or body[end + 1] in ("(", "[", "!", "::", "{") or body[k] == "*" and body[end + 1] == "=":
            return []
        if end > begin:
            written = self.type_of_field(self.kind(body[begin:end - 1], function, self.kinds[function.name][0]), body[end])
        else:
            part = next((part for part in function.takes if ":" in part and part[part.index(":") - 1] == body[end]), None)
            part = [":", "Self"] if body[end] == "self" else part
            written = part and (part[part.index(":") + 1:], function.module, function.scope)
        if written is None:
            return []
        tokens, module, scope = written
        if body[k] == "*":
            tokens = [one for one in tokens if one not in ("&", "mut")]
        return self.arrays(tokens, module, scope, lent=True) + self.arrays_named(tokens, module, scope)


def walked(source, root, most_array, nested):
    """
    Bytes of arrays on the deepest way down from the root, and that way; refuses cycles and, where it is given, a larger array. The functions of
    `nested` may call each other: they count as one that holds their arrays on each level.
    """
    known, nested = {}, frozenset(nested) & source.functions.keys()

    def of(name, above):
        if name in nested and above[-1:] and above[-1] in nested:
            return 0, []                                     # within the one that they count as
        if again := [one for one in above if one == name or {one, name} <= nested]:
            raise Breach("recursion: " + " calls ".join([*above[above.index(again[0]):], name]))
        if name not in known:
            together = sorted(nested) if name in nested else [name]
            below, bytes_ = [], 0
            for one in together:
                held = source.held(one) + (source.given_back(source.functions[one]) if one == root else [])
                if most_array is not None and held and max(held) > most_array:
                    raise Breach(f"{one}, which {root} runs: an array of {max(held)} bytes; {most_array} are allowed")
                bytes_ += sum(held) * (LEVELS if name in nested else 1)
                below += [of(callee, [*above, one]) for callee in sorted(source.calls(one))]
            deepest, way = max(below, key=lambda b: b[0], default=(0, []))
            for one in together:
                known[one] = bytes_ + deepest, [name, *way]
        return known[name]

    return of(root, []), len(known)


def checked(root, calls, nested=NESTED):
    """Of each call: its group, the bytes of arrays on its deepest way, that way, and how many functions it can reach."""
    source = Source(root / "crates")
    found, wanted = {}, {}
    for group, c, name in calls:
        if name is not None:
            wanted[name] = group
            if c is not None:
                wanted[source.for_c(c)] = group
    users = {name.split("::")[0] for name in wanted}
    if missing := {name for name in source.public if name.split("::")[0] in users} - wanted.keys():
        raise Breach(f"{', '.join(sorted(missing))}: a public function that stack_calls.py has not")
    for one, group in wanted.items():
        if one not in source.functions:
            raise Breach(f"there is no {one}")
        (held, way), reached = walked(source, one, MOST_ARRAY if group in SMALL else None, nested if group == "grouping" else frozenset())
        if held > MOST_IN_SOURCE[group]:
            raise Breach(f"{one}: {held} bytes of arrays by {' > '.join(way)}; {MOST_IN_SOURCE[group]} are allowed")
        found[one] = group, held, way, reached
    return found


def main():
    try:
        found = checked(Path(sys.argv[1]), CALLS)
    except Breach as breach:
        sys.exit(f"stack_source: {breach}")
    for name, (_, held, _, reached) in found.items():
        if not name.startswith("capi::"):
            print(f"  {name:21} {held:5} bytes of arrays at most, {reached} functions")
    print(f"stack_source: ok, {len(found)} functions and all that they reach")


if __name__ == "__main__":
    main()
