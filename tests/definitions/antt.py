"""An interpreter of the definition language `antt`, as crates/*/specs/*.antt use it: each definition that is asked
for, and each that it needs, becomes a Python function, and its calls are remembered.

    machine = Antt("CRATES")                # the folder of the crates
    f = machine.get("world_machine.specs.Trace.trace_lines")

Types of the kind `Type 0` become decisions: × is and, ⊎ is or, → is implication, ≡ is equality; a quantifier runs
over the list that `machine.domains["MODULE.NAME", "VARIABLE"]` gives.
"""
import os
import re
import tempfile
import values as V


class Fault(Exception):
    pass


# ---- words

TOKEN = re.compile(r'--[^\n]*|\{-.*?-\}|"[^"]*"|[(){};,@]|\.|[^\s(){}.;,@"«»]+|\n|[ \t]+', re.S)
NUMBER = re.compile(r'0x[0-9a-fA-F_]+|0b[01_]+|0o[0-7_]+|[0-9][0-9_]*$')


class Tok:
    __slots__ = ("kind", "value", "line", "col")

    def __init__(self, kind, value, line, col):
        self.kind, self.value, self.line, self.col = kind, value, line, col

    def __repr__(self):
        return self.value


def words(text):
    out, line, start = [], 1, 0
    for m in TOKEN.finditer(text):
        w, at = m.group(), m.start()
        col = at - start
        if w == "\n":
            line, start = line + 1, m.end()
        elif w[0] in " \t" or w.startswith("--"):
            pass
        elif w.startswith("{-"):
            line += w.count("\n")
        elif w == ".":
            glued = at > 0 and not text[at - 1].isspace() and at + 1 < len(text) and not text[at + 1].isspace()
            out.append(Tok("proj" if glued else "p", w, line, col))
        elif w[0] in "(){};,@":
            out.append(Tok("p", w, line, col))
        elif w[0] == '"':
            out.append(Tok("str", w[1:-1], line, col))
        elif NUMBER.fullmatch(w):
            out.append(Tok("num", w, line, col))
        else:
            out.append(Tok("name", w, line, col))
    return out


def blocks(toks):
    """the items of a block: each begins at the column of the first"""
    out, col, line, depth = [], toks[0].col if toks else 0, 0, 0
    for t in toks:
        if t.col == col and t.line != line and depth == 0:
            out.append([])
        if not out or t.col < col and depth == 0:
            raise Fault("layout at line %d" % t.line)
        depth += {"(": 1, "{": 1, ")": -1, "}": -1}.get(t.value, 0) if t.kind == "p" else 0
        out[-1].append(t)
        line = t.line
    return out


def at_depth(toks, value, kind="name"):
    """the first place of a word outside of brackets"""
    d = 0
    for i, t in enumerate(toks):
        if t.kind == "p" and t.value in "({":
            d += 1
        elif t.kind == "p" and t.value in ")}":
            d -= 1
        elif d == 0 and t.kind == kind and t.value == value:
            return i
    return None


# ---- terms: tuples, the first part is the kind

OPS = {"⊎": (1, "r"), "↔": (0, "n"), "×": (2, "r"), "≡": (4, "n"), "≢": (4, "n"), "||": (30, "l"), "&&": (35, "l"),
       "==": (40, "n"), "<": (50, "n"), "≤": (50, "n"), "+": (65, "l"), "-": (65, "l"), "++": (65, "l"),
       "∷": (67, "r"), "*": (70, "l"), "/": (70, "l"), "%": (70, "l"), "^": (75, "r")}
STOP = {"then", "else", "in", "=", "where", ":", "|", "]", "↦", "→"}


class Terms:
    def __init__(self, toks):
        self.t, self.i = toks, 0

    def peek(self, k=0):
        return self.t[self.i + k] if self.i + k < len(self.t) else None

    def is_(self, value, kind=None):
        t = self.peek()
        return t is not None and t.value == value and t.kind != "str" and (kind is None or t.kind == kind)

    def eat(self, value):
        if not self.is_(value):
            raise Fault("expected %s, found %s" % (value, self.where()))
        self.i += 1

    def where(self):
        t = self.peek()
        return "%r at line %d" % (t.value, t.line) if t else "the end"

    def whole(self):
        e = self.term()
        if self.peek():
            raise Fault("something is left: " + self.where())
        return e

    def binder_ahead(self):
        if not (self.is_("(", "p") or self.is_("{", "p")):
            return False
        k = 1
        while self.peek(k) and self.peek(k).kind == "name" and self.peek(k).value not in (":", "=", "→", "×"):
            k += 1
        return k > 1 and self.peek(k) is not None and self.peek(k).value == ":"

    def binder(self):
        implicit = self.is_("{")
        self.i += 1
        names = []
        while not self.is_(":"):
            names.append(self.peek().value)
            self.i += 1
        self.eat(":")
        ty = self.term()
        self.eat("}" if implicit else ")")
        return names, ty, implicit

    def term(self):
        if self.binder_ahead():
            save, groups = self.i, []
            while self.binder_ahead():
                groups.append(self.binder())
            if self.is_("→"):
                self.i += 1
                return ("pi", groups, self.term())
            self.i = save
        left = self.op(0)
        if self.is_("→"):
            self.i += 1
            return ("fun", left, self.term())
        return left

    def op(self, low):
        if self.binder_ahead():
            names, ty, _ = self.binder()
            self.eat("×")
            return ("sigma", names, ty, self.op(2))
        left = self.app()
        while True:
            t = self.peek()
            if t is None or t.kind != "name" or t.value not in OPS:
                return left
            p, side = OPS[t.value]
            if p < low:
                return left
            self.i += 1
            right = self.op(p if side == "r" else p + 1)
            left = ("op", t.value, left, right, t.line)

    def closed(self):
        """a term that goes as far as it can"""
        t = self.peek()
        if t is None or t.kind != "name":
            return None
        if t.value == "λ":
            self.i += 1
            names = []
            while not (self.is_(".", "p")):
                if self.is_("("):
                    ns, _, _ = self.binder()
                    names += ns
                else:
                    names.append(self.peek().value)
                    self.i += 1
            self.eat(".")
            return ("lam", names, self.term())
        if t.value == "let":
            self.i += 1
            name = self.peek().value
            self.i += 1
            if self.is_(":"):
                self.i += 1
                self.term()
            self.eat("=")
            e = self.term()
            self.eat("in")
            return ("let", name, e, self.term())
        if t.value == "if":
            self.i += 1
            c = self.term()
            self.eat("then")
            a = self.term()
            self.eat("else")
            return ("if", c, a, self.op(5), t.line)
        return None

    def app(self):
        e = self.closed()
        if e is not None:
            return e
        f = self.atom()
        args = []
        while True:
            t = self.peek()
            if t is None:
                break
            if t.kind == "p" and t.value == "{":
                self.skip()
                continue
            if t.kind == "p" and t.value in "),;}." or t.kind == "name" and (t.value in OPS or t.value in STOP):
                break
            if t.kind == "name" and t.value in ("λ", "let"):
                args.append(self.closed())
                break
            args.append(self.atom())
        return ("app", f, args) if args else f

    def skip(self):
        d = 0
        while True:
            t = self.peek()
            d += {"{": 1, "}": -1}.get(t.value, 0) if t.kind == "p" else 0
            self.i += 1
            if d == 0:
                return

    def projections(self, e):
        while self.peek() and self.peek().kind == "proj":
            self.i += 1
            e = ("proj", e, self.peek().value)
            self.i += 1
        return e

    def atom(self):
        t = self.peek()
        if t is None:
            raise Fault("a term is missing at the end")
        self.i += 1
        if t.kind == "num":
            return ("num", int(t.value.replace("_", ""), 0))
        if t.kind == "str":
            return ("str", t.value)
        if t.kind == "p" and t.value == "(":
            parts = [self.term()]
            while self.is_(",", "p"):
                self.i += 1
                parts.append(self.term())
            self.eat(")")
            return self.projections(parts[0] if len(parts) == 1 else ("tuple", parts))
        if t.kind == "name" and t.value == "record":
            base = None
            if not self.is_("{"):
                base = self.atom()
            self.eat("{")
            fields = []
            while not self.is_("}", "p"):
                name = self.peek().value
                self.i += 1
                self.eat("=")
                fields.append((name, self.term()))
                if self.is_(";"):
                    self.i += 1
            self.eat("}")
            return ("record", base, fields)
        if t.kind == "name":
            parts = [t.value]
            while self.peek() and self.peek().kind == "proj":
                self.i += 1
                parts.append(self.peek().value)
                self.i += 1
            return ("name", parts, t.line)
        raise Fault("no term: %r at line %d" % (t.value, t.line))


class Patterns(Terms):
    def pattern(self):
        left = self.one()
        if self.is_("∷"):
            self.i += 1
            return ("con", ["∷"], [left, self.pattern()])
        return left

    def one(self):
        t = self.peek()
        if t.kind == "p" and t.value == "(":
            return self.simple()
        parts = self.dotted()
        args = []
        while self.peek() and not (self.peek().kind == "p" and self.peek().value in "),") and not self.is_("∷"):
            args.append(self.simple())
        return ("con", parts, args)

    def dotted(self):
        parts = [self.peek().value]
        self.i += 1
        while self.peek() and self.peek().kind == "proj":
            self.i += 1
            parts.append(self.peek().value)
            self.i += 1
        return parts

    def simple(self):
        t = self.peek()
        if t.kind == "p" and t.value == "(":
            self.i += 1
            p = self.pattern()
            if self.is_(","):
                ps = [p]
                while self.is_(","):
                    self.i += 1
                    ps.append(self.pattern())
                p = ("tuple", ps)
            self.eat(")")
            return p
        if t.kind != "name":
            raise Fault("no pattern: " + self.where())
        return ("con", self.dotted(), [])


# ---- modules

class Def:
    def __init__(self, module, name, sig, line):
        self.module, self.name, self.sig, self.line = module, name, sig, line
        self.clauses = []            # (patterns, body, where items, line)
        self.py = None

    @property
    def full(self):
        return self.module.name + "." + self.name


class TypeEnt:
    def __init__(self, name, cons=None, params=None, fields=None, module=None):
        self.name, self.cons, self.params, self.fields, self.module = name, cons or {}, params, fields, module
        self.py = None


MARKS = {"pattern", "unfoldable", "abbrev", "pub", "axiom"}
USE = re.compile(r"^(?:pub |unfoldable )*use ([^\s{]+?)(?:\.\{([^}]*)\})?(?: as (\S+))?$", re.M)


class Module:
    def __init__(self, antt, name, path):
        self.antt, self.name = antt, name
        text = open(path, encoding="utf-8").read()
        self.path = path
        self.defs, self.types, self.cons, self.uses = {}, {}, {}, {}
        for m in USE.finditer(text):
            base, names, alias = m.group(1), m.group(2), m.group(3)
            if names is None:
                self.use(alias or base.split(".")[-1], base.split("."))
                continue
            for n in names.split(","):
                n = n.strip()
                a, _, b = n.partition(" as ")
                self.use((b or a.split(".")[-1]).strip(), base.split(".") + a.strip().split("."))
        body = "\n".join("" if re.match(r"^((pub|unfoldable) )*(use|mod) ", line) else line for line in text.split("\n"))
        for item in blocks(words(body)):
            self.item(item)

    def use(self, name, path):
        if path not in self.uses.setdefault(name, []):
            self.uses[name].append(path)

    def item(self, it):
        i = 0
        while it[i].kind == "name" and it[i].value in MARKS:
            i += 1
        it = it[i:]
        w = it[0].value
        if w in ("infix", "infixl", "infixr", "unfolding"):
            return
        if w == "data":
            return self.data(it)
        if w == "record" and it[1].kind == "name":
            return self.record(it)
        if len(it) > 1 and (it[1].value == ":" or it[1].value == "{" and at_depth(it, ":") is not None):
            k = at_depth(it, ":")
            self.defs[w] = Def(self, w, Terms(it[k + 1:]).whole(), it[0].line)
            return
        clause(self.defs, it)

    def data(self, it):
        k = at_depth(it, "where")
        name = it[1].value
        cons = {}
        for c in blocks(it[k + 1:]):
            ty = Terms(c[2:]).whole()
            cons[c[0].value] = V.Con("%s.%s.%s" % (self.name, name, c[0].value), len(params_of(ty)[0]))
        t = TypeEnt(name, cons, module=self)
        self.types[name] = t
        for n, c in cons.items():
            self.cons.setdefault(n, []).append(c)

    def record(self, it):
        k = at_depth(it, "where")
        p = Terms(it[2:at_depth(it, ":")])
        params = []
        while p.peek():
            names, _, implicit = p.binder()
            if not implicit:
                params += names
        fields = []
        for f in blocks(it[k + 1:]) if k + 1 < len(it) else []:
            f = f[1:] if f[0].value == "pub" else f
            fields.append((f[0].value, Terms(f[2:]).whole()))
        self.types[it[1].value] = TypeEnt(it[1].value, None, params, fields, self)

    def member(self, name):
        if name in self.defs:
            return self.defs[name]
        if name in self.types:
            return self.types[name]
        found = list(self.cons.get(name, []))
        for path in self.uses.get(name, []):
            e = self.antt.lookup(path)
            if e not in found:
                found.append(e)
        return one_of(found, name)


class Either:
    """a constructor's name that two types share: which one is meant, the type of the matched value tells"""

    def __init__(self, name, cons):
        self.name, self.cons = name, cons


def one_of(found, name):
    if len(found) < 2:
        return found[0] if found else None
    if all(isinstance(e, V.Con) for e in found):
        return Either(name, found)
    # a module and a type may share a name, and then the type's members come first
    types = [e for e in found if isinstance(e, TypeEnt)]
    if len(types) == 1 and all(isinstance(e, (TypeEnt, Module)) for e in found):
        return types[0]
    raise Fault("%s is more than one thing" % name)


def clause(defs, it):
    k = at_depth(it, "=")
    if k is None:
        raise Fault("no clause at line %d: %r" % (it[0].line, it[:6]))
    name = it[0].value
    p = Patterns(it[1:k])
    pats = []
    while p.peek():
        if p.is_("{", "p"):
            p.skip()
        else:
            pats.append(p.simple())
    rest = it[k + 1:]
    w = at_depth(rest, "where")
    where = blocks(rest[w + 1:]) if w is not None else []
    if name not in defs:
        raise Fault("a clause of %s, which has no signature, at line %d" % (name, it[0].line))
    defs[name].clauses.append((pats, Terms(rest[:w] if w is not None else rest).whole(), where, it[0].line))


def params_of(ty):
    """the explicit parameters of a function's type, and its result"""
    out = []
    while True:
        if ty[0] == "fun":
            out.append(ty[1])
            ty = ty[2]
        elif ty[0] == "pi":
            for names, t, implicit in ty[1]:
                if not implicit:
                    out += [t] * len(names)
            ty = ty[2]
        else:
            return out, ty


def has_arrow(ty):
    return isinstance(ty, (tuple, list)) and (bool(ty) and ty[0] in ("fun", "pi") or any(has_arrow(x) for x in ty))


# ---- what the library gives: name -> (arity, Python text with {0}, {1} … for the arguments)

NATIVE = {
    "zero": (0, "0"), "true": (0, "True"), "false": (0, "False"), "[]": (0, 'b""'), "tt": (0, "True"),
    "⊤": (0, "True"), "⊥": (0, "False"), "Unit": (0, "True"),
    "suc": (1, "({0}+1)"), "pred": (1, "sub({0},1)"), "not": (1, "(not {0})"),
    "+": (2, "({0}+{1})"), "-": (2, "sub({0},{1})"), "*": (2, "({0}*{1})"), "/": (2, "div({0},{1})"),
    "%": (2, "mod({0},{1})"), "^": (2, "({0}**{1})"), "&&": (2, "({0} and {1})"), "||": (2, "({0} or {1})"),
    "==": (2, "({0}=={1})"), "nat_eq": (2, "({0}=={1})"), "nat_lt": (2, "({0}<{1})"), "nat_le": (2, "({0}<={1})"),
    "beq": (2, "({0}=={1})"), "bytes_eq": (2, "({0}=={1})"), "cond": (3, "({1} if {0} else {2})"),
    "≡": (2, "({0}=={1})"), "≢": (2, "({0}!={1})"), "<": (2, "({0}<{1})"), "≤": (2, "({0}<={1})"),
    "⊎": (2, "({0} or {1})"), "×": (2, "({0} and {1})"),
    "∷": (2, "cons({0},{1})"), "++": (2, "append({0},{1})"), "length": (1, "length({0})"),
    "map": (2, "lmap({0},{1})"), "filter": (2, "lfilter({0},{1})"), "find": (2, "lfind({0},{1})"),
    "list_any": (2, "lany({0},{1})"), "reverse": (1, "lreverse({0})"), "take": (2, "take({0},{1})"),
    "drop": (2, "drop({0},{1})"), "slice_index": (2, "get_or({0},{1},0)"), "get_or": (3, "get_or({0},{1},{2})"),
    "slice_index_or": (3, "get_or({0},{1},{2})"), "slice_range": (3, "slice_range({0},{1},{2})"),
    "replicate": (2, "replicate({0},{1})"), "range_with_len": (2, "range_with_len({0},{1})"),
    "min": (2, "min({0},{1})"), "max": (2, "max({0},{1})"), "bit_xor": (2, "({0}^{1})"), "bit_and": (2, "({0}&{1})"),
    "bit_or": (2, "({0}|{1})"), "div_ceil": (2, "div_ceil({0},{1})"), "codes": (1, "{0}"),
    "is_some": (1, "is_some({0})"), "is_none": (1, "(not is_some({0}))"), "unwrap_or": (2, "unwrap_or({0},{1})"),
    "option_map": (2, "option_map({0},{1})"), "option_or": (2, "option_or({0},{1})"), "result_ok": (1, "result_ok({0})"), "result_err": (1, "result_err({0})"),
    "little_bytes": (2, "little_bytes({0},{1})"), "big_bytes": (2, "big_bytes({0},{1})"),
    "little_number": (2, "little_number({0},{1})"), "big_number": (2, "big_number({0},{1})"),
    "w16": (0, "2"), "w32": (0, "4"), "w64": (0, "8"), "to_le_bytes": (2, "little_bytes({0},{1})"),
    "sha256": (1, "sha256({0})"), "sha384": (1, "sha384({0})"),
    "Contains": (2, "({1} in items({0}))"), "MatchBool": (3, "({1} if {0} else {2})"),
    "IfSome": (2, "((not is_some({0})) or {1}({0}.a0))"),
}
NATIVE_CON = {"Some": V.SOME, "None": V.NO, "Ok": V.OK, "Err": V.ERR}
# definitions that are given natively
INSTEAD = {
    "Rattle.hmac_hkdf.specs.Hmac.hmac": (3, "hmac({0},{1},{2})"),
    "Rattle.aes_gcm.specs.Gcm.crypt": (3, "crypt({0},{1},{2})"),
    "Rattle.aes_gcm.specs.Gcm.tag_of": (4, "tag_of({0},{1},{2},{3})"),
}
LIBRARY = ("std", "core", "byteorder", "sha2")


class Native:
    def __init__(self, arity, text, name):
        self.arity, self.text, self.name = arity, text, name


class Local:
    """a name of a clause: a variable, or a function of a `where`"""

    def __init__(self, py, arity=None):
        self.py, self.arity = py, arity


class Antt:
    def __init__(self, crates, coverage=False):
        self.crates = crates
        self.places, self.seen = [] if coverage else None, set()      # what may be computed, and what was
        self.modules, self.declared, self.natives = {}, {}, {}
        self.domains = {}
        self.count = 0
        self.todo = []
        self.g = {k: getattr(V, k) for k in dir(V) if not k.startswith("__")}
        self.g["NOTHING"] = object()
        self.g["domain"] = self.domain
        self.g["SEEN"] = self.seen
        self.constants = V.table()
        self.g["CONSTANTS"] = self.constants
        self.remembered = {}
        for n, (a, t) in NATIVE.items():
            self.natives[n] = Native(a, t, n)
        self.instead = {n: Native(a, t, n) for n, (a, t) in INSTEAD.items()}
        self.source = {}

    def domain(self, where, name):
        return self.domains[where, name]()

    # -- names

    def module(self, parts):
        name = ".".join(parts)
        if name in self.modules:
            return self.modules[name]
        m = None
        if parts[0] == "Rattle" and len(parts) > 3 and parts[2] == "specs":
            path = os.path.join(self.crates, parts[1], "specs", *parts[3:]) + ".antt"
            if os.path.exists(path):
                m = self.modules[name] = Module(self, name, path)
                return m
        self.modules[name] = m
        return m

    def lookup(self, parts):
        if parts[0] == "Rattle" and len(parts) > 1 and parts[1] in LIBRARY:
            return self.native(parts[-1]) if len(parts) > 4 or parts[-1] not in ("Prelude",) else None
        if "declared" in parts:
            return self.lookup_declared(parts)
        for k in range(len(parts), 2, -1):
            m = self.module(parts[:k])
            if m is not None:
                e = m
                for p in parts[k:]:
                    e = self.member(e, p)
                return e
        raise Fault("no module for " + ".".join(parts))

    def member(self, e, name):
        if isinstance(e, Module):
            r = e.member(name)
        elif isinstance(e, TypeEnt):
            r = e if name == "TheVariants" else e.cons.get(name)
        else:
            r = None
        if r is None:
            raise Fault("%r has no member %s" % (getattr(e, "name", e), name))
        return r

    def native(self, name):
        bare = name.replace("◌", "") if "◌" in name else name
        if bare in NATIVE_CON:
            return NATIVE_CON[bare]
        return self.natives.get(bare) or TypeEnt(bare)

    def lookup_declared(self, parts):
        crate, i = parts[1], parts.index("declared")
        if "TheConstants" in parts:
            k = parts.index("TheConstants")
            e = self.constants_of(crate, tuple(parts[i + 1:k]))
            for p in parts[k + 1:]:
                e = self.member(e, p)
            return e
        for k in range(i + 1, len(parts)):
            if parts[k][0].isupper():
                e = self.declared_type(crate, parts[k])
                for p in parts[k + 1:]:
                    e = self.member(e, p)
                return e
        raise Fault("no declared type in " + ".".join(parts))

    def constants_of(self, crate, path):
        """the constants of a module of the code, as a module of definitions"""
        name = "Constants." + crate + "." + ".".join(path)
        if name in self.modules:
            return self.modules[name]
        file = os.path.join(self.crates, crate, "src", (path[0] if path else "lib") + ".rt")
        text = open(file if os.path.exists(file) else os.path.join(self.crates, crate, "src", "lib.rt"), encoding="utf-8").read()
        for mod in path[1:] if os.path.exists(file) else path:
            m = re.search(r"^\s*pub mod %s \{(.*?)^\}" % mod, text, re.S | re.M)
            text = m.group(1) if m else ""
        if len(path) <= 1:
            text = re.sub(r"^pub mod \w+ \{.*?^\}", "", text, flags=re.S | re.M)
        numbers, lines = {}, ["use Rattle.std.specs.Prelude.{ℕ, List, ◌∷◌, []}"]
        for n, v in re.findall(r"^\s*pub const (\w+): (?:\w+|\[[^\]]*\]) = ([^;]+);", text, re.M):
            v = re.sub(r" as u\w+", "", re.sub(r"//[^\n]*", "", v))
            near = dict(numbers)
            for mod, other in set(re.findall(r"(\w+)::(\w+)", v)):
                near[mod + "__" + other] = self.constants_of(crate, path + (mod,)).numbers.get(other)
            try:
                numbers[n] = eval(v.replace("::", "__"), {"__builtins__": {}}, near)
            except (NameError, SyntaxError, TypeError):
                continue                      # no number and no list of numbers
            if isinstance(numbers[n], list):
                lines += ["pub %s : List ℕ" % n, "%s = %s" % (n, " ∷ ".join([*map(str, numbers[n]), "[]"]))]
            elif isinstance(numbers[n], int):
                lines += ["pub %s : ℕ" % n, "%s = %d" % (n, numbers[n])]
        with tempfile.NamedTemporaryFile("w", suffix=".antt", encoding="utf-8") as it:
            it.write("\n".join(lines) + "\n")
            it.flush()
            m = self.modules[name] = Module(self, name, it.name)
        m.numbers = numbers
        return m

    def declared_type(self, crate, name):
        if (crate, name) in self.declared:
            return self.declared[crate, name]
        for folder, _, files in os.walk(os.path.join(self.crates, crate, "src")):
            for f in sorted(files):
                if not f.endswith(".rt"):
                    continue
                text = open(os.path.join(folder, f), encoding="utf-8").read()
                m = re.search(r"^pub (enum|struct) %s(?:<[^>]*>)?\s*\{(.*?)^\}" % name, text, re.S | re.M)
                if not m:
                    continue
                body = re.sub(r"//[^\n]*|#\[[^\n]*\]", "", m.group(2))
                t = TypeEnt(name)
                if m.group(1) == "enum":
                    for v in split_commas(body):
                        n = re.match(r"\w+", v).group()
                        rest = v[len(n):].strip()
                        arity = len(split_commas(rest[1:-1])) if rest else 0
                        t.cons[n] = V.Con("%s.%s.%s" % (crate, name, n), arity)
                self.declared[crate, name] = t
                return t
        t = self.declared[crate, name] = TypeEnt(name)
        return t

    def resolve(self, module, name):
        e = module.member(name)
        if e is not None:
            return e
        for m in module.uses:
            if "◌" in m and m.replace("◌", "") == name:
                return self.lookup(module.uses[m][0])
        if name in ("tt", "Unit", "⊥", "×"):
            return self.natives[name]
        return None

    # -- Python

    def get(self, path):
        e = self.lookup(["Rattle"] + path.split("."))
        if isinstance(e, Def) or isinstance(e, TypeEnt) and e.params is not None:
            py = self.python(e)
            self.run()
            return self.g[py]
        if isinstance(e, V.Con):
            return e.make if e.arity else e.value
        return e

    def fresh(self, stem):
        self.count += 1
        return re.sub(r"\W", "_", stem) + "_%d" % self.count

    def python(self, e):
        """the Python name of a definition or a parameterized record; it is compiled soon"""
        if e.py is None:
            e.py = self.fresh(e.name)
            self.todo.append(e)
        return e.py

    def run(self):
        while self.todo:
            e = self.todo.pop()
            try:
                text = Code(self, e).text()
            except Fault as f:
                raise Fault("%s: %s: %s" % (e.module.path, e.name, f)) from None
            self.source[e.py] = (e, text)
            exec(compile(text, "<%s.%s>" % (e.module.name, e.name), "exec"), self.g)

    def con_py(self, c):
        n = "K%d" % V.CONS.index(c)
        if n not in self.g:
            self.g[n] = c.cls
            self.g["m" + n] = c.make if c.arity else c.value
        return n


def split_commas(text):
    out, d, cur = [], 0, ""
    for ch in text:
        d += {"(": 1, "<": 1, "[": 1, "{": 1, ")": -1, ">": -1, "]": -1, "}": -1}.get(ch, 0)
        if ch == "," and d == 0:
            out.append(cur)
            cur = ""
        else:
            cur += ch
    out.append(cur)
    return [x.strip() for x in out if x.strip()]


class Code:
    def __init__(self, antt, e):
        self.a, self.e, self.m = antt, e, e.module
        self.n = 0
        self.out = []

    def var(self, stem="v"):
        self.n += 1
        return re.sub(r"\W", "_", stem) + "__%d" % self.n

    def put(self, depth, line):
        self.out.append("    " * depth + line)

    def text(self):
        e = self.e
        if isinstance(e, TypeEnt):
            args = [self.var(p) for p in e.params]
            env = {p: Local(v) for p, v in zip(e.params, args)}
            parts = []
            for f, ty in e.fields:
                parts.append(self.term(ty, env))
            self.put(0, "def %s(%s):" % (e.py, ", ".join(args)))
            self.put(1, "return " + (" and ".join("(%s)" % p for p in parts) or "True"))
            return "\n".join(self.out)
        params, result = params_of(e.sig)
        arity = self.arity(e)
        if not e.clauses:
            raise Fault("no clauses")
        args = ["a%d" % i for i in range(arity)]
        remember = not any(has_arrow(t) for t in params) and arity > 0
        self.put(0, "def %s(%s):" % (e.py, ", ".join(args)))
        inner = e.py + "_"
        if arity == 0:
            self.put(1, "r = CONSTANTS.get(%r, NOTHING)" % e.py)
            self.put(1, "if r is NOTHING: r = CONSTANTS[%r] = %s()" % (e.py, inner))
            self.put(1, "return r")
        elif remember:
            self.a.g[e.py + "_m"] = self.a.remembered[e.full] = V.table()
            self.put(1, "k = (%s,)" % ", ".join(args))
            self.put(1, "r = %s_m.get(k, NOTHING)" % e.py)
            self.put(1, "if r is NOTHING: r = %s_m[k] = %s(%s)" % (e.py, inner, ", ".join(args)))
            self.put(1, "return r")
        else:
            self.put(1, "return %s(%s)" % (inner, ", ".join(args)))
        self.put(0, "def %s(%s):" % (inner, ", ".join(args)))
        self.clauses(1, e.clauses, args, {}, e.name)
        return "\n".join(self.out)

    def arity(self, d):
        ns = {len(c[0]) for c in d.clauses}
        if len(ns) > 1:
            raise Fault("clauses of different lengths of " + d.name)
        return ns.pop() if ns else 0

    def clauses(self, depth, clauses, args, env, name):
        for pats, body, where, line in clauses:
            d, env2 = depth, dict(env)
            for p, a in zip(pats, args):
                d = self.match(d, p, a, env2)
            for group in self.helpers(where):
                arity = self.arity(group)
                py = self.var(group.name)
                env2 = dict(env2)
                env2[group.name] = Local(py, arity)
                hargs = [self.var("h") for _ in range(arity)]
                self.put(d, "def %s(%s):" % (py, ", ".join(hargs)))
                self.clauses(d + 1, group.clauses, hargs, env2, group.name)
            text = self.term(body, env2)
            self.put(d, "return " + (text if self.a.places is None else self.seen(line, "clause", text)))
        self.put(depth, "raise AssertionError('no clause of %s')" % name)

    def helpers(self, where):
        defs = {}
        for it in where:
            if len(it) > 1 and it[1].value == ":":
                defs[it[0].value] = Def(self.m, it[0].value, Terms(it[2:]).whole(), it[0].line)
            elif it[0].value != "unfolding":
                clause(defs, it)
        return list(defs.values())

    def find(self, parts, env):
        """what a dotted name stands for, and what projections are left"""
        if parts[0] in env:
            return env[parts[0]], parts[1:]
        e = self.a.resolve(self.m, parts[0])
        if e is None:
            if parts[0] == "Rattle":
                return self.a.lookup(parts), []
            return None, parts[1:]
        i = 1
        while i < len(parts) and isinstance(e, (Module, TypeEnt)):
            e = self.a.member(e, parts[i])
            i += 1
        return e, parts[i:]

    def match(self, d, p, a, env):
        if p[0] == "tuple":
            for i, q in enumerate(p[1]):
                v = self.var("t")
                self.put(d, "%s = %s[%d]" % (v, a, i))
                d = self.match(d, q, v, env)
            return d
        parts, args = p[1], p[2]
        if parts == ["_"]:
            return d
        e, left = self.find(parts, {})
        if isinstance(e, Either) and not left:
            fit = [c for c in e.cons if c.arity == len(args)]
            self.put(d, "if type(%s) in (%s,):" % (a, ", ".join(self.a.con_py(c) for c in fit)))
            return self.parts(d + 1, [("%s.a%d" % (a, i), q) for i, q in enumerate(args)], env)
        if isinstance(e, V.Con) and not left:
            if len(args) != e.arity:
                raise Fault("pattern %s with %d parts" % (e.name, len(args)))
            self.put(d, "if type(%s) is %s:" % (a, self.a.con_py(e)))
            return self.parts(d + 1, [("%s.a%d" % (a, i), q) for i, q in enumerate(args)], env)
        if isinstance(e, Native) and e.name in ("zero", "suc", "true", "false", "[]", "∷", "tt"):
            n = e.name
            if n == "zero":
                self.put(d, "if %s == 0:" % a)
                return d + 1
            if n == "suc":
                self.put(d, "if %s > 0:" % a)
                return self.parts(d + 1, [("%s-1" % a, args[0])], env)
            if n == "true":
                self.put(d, "if %s:" % a)
                return d + 1
            if n == "false" or n == "[]":
                self.put(d, "if not %s:" % a)
                return d + 1
            if n == "∷":
                self.put(d, "if %s:" % a)
                return self.parts(d + 1, [("head(%s)" % a, args[0]), ("tail(%s)" % a, args[1])], env)
            return d
        if args or len(parts) > 1:
            raise Fault("no constructor: %s" % ".".join(parts))
        env[parts[0]] = Local(a)
        return d

    def parts(self, d, pairs, env):
        for text, q in pairs:
            if q == ("con", ["_"], []):
                continue
            v = self.var("p")
            self.put(d, "%s = %s" % (v, text))
            d = self.match(d, q, v, env)
        return d

    # -- terms

    def term(self, t, env):
        k = t[0]
        if k == "num":
            return str(t[1])
        if k == "str":
            return repr(t[1].encode())
        if k == "name":
            return self.app(t, [], env)
        if k == "app":
            return self.app(t[1], t[2], env)
        if k == "proj":
            return self.project(self.term(t[1], env), [t[2]])
        if k == "tuple":
            return "(%s,)" % ", ".join(self.term(x, env) for x in t[1])
        if k == "if":
            a, b = self.term(t[2], env), self.term(t[3], env)
            if self.a.places is not None:
                a, b = self.seen(t[4], "then", a), self.seen(t[4], "else", b)
            return "(%s if %s else %s)" % (a, self.term(t[1], env), b)
        if k == "lam":
            names = [self.var(n) for n in t[1]]
            env = dict(env)
            env.update({n: Local(v) for n, v in zip(t[1], names)})
            return "(" + "".join("lambda %s: " % v for v in names) + self.term(t[2], env) + ")"
        if k == "let":
            v = self.var(t[1])
            env2 = dict(env)
            env2[t[1]] = Local(v)
            return "(lambda %s: %s)(%s)" % (v, self.term(t[3], env2), self.term(t[2], env))
        if k == "record":
            if t[1] is not None:
                return "update(%s, {%s})" % (self.term(t[1], env), ", ".join("%r: %s" % (f, self.term(x, env)) for f, x in t[2]))
            s = V.shape([f for f, _ in t[2]])
            n = "R%d" % list(V.SHAPES.values()).index(s)
            self.a.g[n] = s.make
            given = dict(t[2])
            return "%s(%s)" % (n, ", ".join(self.term(given[f], env) for f in s.fields))
        if k == "op" and t[1] in ("&&", "||") and self.a.places is not None:
            xs = ["(%s if %s else %s)" % (self.seen(t[4], w + " true", "True"), self.term(x, env), self.seen(t[4], w + " false", "False"))
                  if x[:2] != ("op", t[1]) else self.term(x, env) for x, w in ((t[2], "left of " + t[1]), (t[3], "right of " + t[1]))]
            return "(%s %s %s)" % (xs[0], "and" if t[1] == "&&" else "or", xs[1])
        if k == "op":
            return self.call(self.a.natives[t[1]], [t[2], t[3]], env)
        if k == "fun":
            return "((not %s) or %s)" % (self.term(t[1], env), self.term(t[2], env))
        if k == "pi":
            return self.quantified("all", [(n, ty) for names, ty, _ in t[1] for n in names], t[2], env)
        if k == "sigma":
            return self.quantified("any", [(n, t[2]) for n in t[1]], t[3], env)
        raise Fault("no code for " + k)

    def seen(self, line, what, text):
        """a term, with a mark that it was computed"""
        p = self.a.places
        p.append((self.m.path, line, self.e.name, what))
        return "(SEEN.add(%d) or %s)" % (len(p) - 1, text)

    def quantified(self, word, pairs, body, env):
        env = dict(env)
        loops = []
        for n, ty in pairs:
            v = self.var(n)
            loops.append("for %s in domain(%r, %r)" % (v, self.m.name.replace("Rattle.", "") + "." + self.e.name, n))
            env[n] = Local(v)
        return "%s(%s %s)" % (word, self.term(body, env), " ".join(loops))

    def project(self, text, fields):
        for f in fields:
            text = "%s[%s]" % (text, f) if f.isdigit() else "%s.f_%s" % (text, f)
        return text

    def app(self, f, args, env):
        if f[0] != "name":
            return self.apply(self.term(f, env), args, env)
        e, left = self.find(f[1], env)
        if e is None:
            raise Fault("no name %s at line %d" % (".".join(f[1]), f[2]))
        if left:
            return self.apply(self.project(self.call(e, [], env), left), args, env)
        return self.call(e, args, env)

    def apply(self, text, args, env):
        for a in args:
            text = "%s(%s)" % (text, self.term(a, env))
        return text

    def call(self, e, args, env):
        if isinstance(e, Local) and e.arity is None:
            return self.apply(e.py, args, env)
        if isinstance(e, Local):
            n, f = e.arity, e.py
            full = lambda xs: "%s(%s)" % (f, ", ".join(xs))
        elif isinstance(e, V.Con):
            k = self.a.con_py(e)
            n, f = e.arity, "m" + k
            full = (lambda xs: "%s(%s)" % (f, ", ".join(xs))) if n else (lambda xs: f)
        elif isinstance(e, Def) and e.full in self.a.instead or isinstance(e, Native):
            if isinstance(e, Def):
                e = self.a.instead[e.full]
            n = e.arity
            full = lambda xs: e.text.format(*xs)
            f = "(lambda %s: %s)" % (", ".join("x%d" % i for i in range(n)), full(["x%d" % i for i in range(n)]))
            if len(args) < n:
                name = "N_" + re.sub(r"\W", lambda c: "%x" % ord(c.group()), e.name)
                if name not in self.a.g:
                    self.a.g[name] = eval(f, self.a.g)
                f = name
        elif isinstance(e, Def):
            n, f = self.arity(e), self.a.python(e)
            full = lambda xs: "%s(%s)" % (f, ", ".join(xs))
        elif isinstance(e, TypeEnt) and e.params is not None:
            n, f = len(e.params), self.a.python(e)
            full = lambda xs: "%s(%s)" % (f, ", ".join(xs))
        else:
            raise Fault("%r is no value" % getattr(e, "name", e))
        texts = [self.term(a, env) for a in args]
        if len(texts) >= n:
            out = full(texts[:n])
            for x in texts[n:]:
                out = "%s(%s)" % (out, x)
            return out
        if not texts and n == 0:
            return full([])
        return "pap(%s, %d, (%s))" % (f, n, "".join(x + ", " for x in texts))
