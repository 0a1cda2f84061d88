"""Values of the definition language and its library, in Python.

A number is an int, a Bool a bool, a tuple a tuple.  A list whose elements are all below 256 is `bytes`, so [] is b"";
any other list is a chain of `Cons`.  Constructors, records, cells and partial applications are interned: equal values
are one object, so calls can be remembered by their arguments.
"""
import hashlib

TABLES = []          # all tables that are emptied between two scripts


def table():
    t = {}
    TABLES.append(t)
    return t


def forget():
    for t in TABLES:
        t.clear()


class Cons:
    __slots__ = ("h", "t", "n")

    def __repr__(self):
        return repr(items(self))


CELLS = table()


def cons(h, t):
    if type(h) is int and h < 256 and type(t) is bytes:
        return bytes((h,)) + t
    k = (h, t)
    o = CELLS.get(k)
    if o is None:
        o = Cons()
        o.h, o.t = h, t
        o.n = (len(t) if type(t) is bytes else t.n) + 1
        CELLS[k] = o
    return o


def items(x):
    out = []
    while type(x) is Cons:
        out.append(x.h)
        x = x.t
    out.extend(x)
    return out


def onto(xs, t):
    """the elements of a Python sequence in front of a list"""
    for h in reversed(xs):
        t = cons(h, t)
    return t


def from_items(xs):
    try:
        if all(type(x) is int for x in xs):
            return bytes(xs)
    except ValueError:
        pass
    return onto(xs, b"")


def head(x):
    return x[0] if type(x) is bytes else x.h


def tail(x):
    return x[1:] if type(x) is bytes else x.t


def append(a, b):
    if type(a) is bytes:
        if type(b) is bytes:
            return a + b
        return onto(a, b)
    return onto(items(a), b)


def length(x):
    return len(x) if type(x) is bytes else x.n


def take(n, x):
    if type(x) is bytes:
        return x[:n]
    return from_items(items(x)[:n])


def drop(n, x):
    while n > 0 and type(x) is Cons:
        x, n = x.t, n - 1
    return x[n:] if n > 0 else x


def get_or(x, i, d):
    x = drop(i, x)
    return head(x) if x else d


def slice_range(x, a, b):
    return take(max(0, b - a), drop(a, x))


class Pap:
    """a function of n arguments that has fewer"""
    __slots__ = ("f", "n", "args")

    def __call__(self, x):
        args = self.args + (x,)
        return self.f(*args) if len(args) == self.n else pap(self.f, self.n, args)


PAPS = table()


def pap(f, n, args):
    if n == len(args):
        return f(*args)
    k = (f, args)
    o = PAPS.get(k)
    if o is None:
        o = Pap()
        o.f, o.n, o.args = f, n, args
        PAPS[k] = o
    return o


def lmap(f, x):
    return from_items([f(e) for e in (x if type(x) is bytes else items(x))])


FILTERED = table()


def lfilter(f, x):
    if type(x) is bytes:
        return bytes(e for e in x if f(e))
    if type(f) is not Pap:
        return from_items([e for e in items(x) if f(e)])
    todo = []
    while type(x) is Cons and (f, x) not in FILTERED:
        todo.append(x)
        x = x.t
    out = FILTERED[f, x] if type(x) is Cons else lfilter(f, x)
    for c in reversed(todo):
        if f(c.h):
            out = cons(c.h, out)
        FILTERED[f, c] = out
    return out


def lfind(f, x):
    for e in x if type(x) is bytes else walk(x):
        if f(e):
            return Some(e)
    return NONE


def walk(x):
    while type(x) is Cons:
        yield x.h
        x = x.t
    yield from x


def lany(f, x):
    return any(f(e) for e in (x if type(x) is bytes else walk(x)))


def lreverse(x):
    return x[::-1] if type(x) is bytes else from_items(items(x)[::-1])


def replicate(n, a):
    return from_items([a] * n)


def range_with_len(a, n):
    return from_items(list(range(a, a + n)))


def sub(a, b):
    return a - b if a > b else 0


BY_ZERO = [0]         # what n / 0 is; --by-zero N changes it, to see that no line rests on it
ZEROS = [0]           # how often it was asked for


def div(a, b):
    if b == 0:
        ZEROS[0] += 1
        return BY_ZERO[0]
    return a // b


def mod(a, b):
    if b == 0:
        ZEROS[0] += 1
        return a
    return a % b


def div_ceil(a, b):
    return div(a, b) + min(1, mod(a, b))


def little_bytes(n, x):
    return (x % (1 << (8 * n))).to_bytes(n, "little")


def big_bytes(n, x):
    return (x % (1 << (8 * n))).to_bytes(n, "big")


def first_bytes(n, x):
    if type(x) is not bytes:
        x = take(n, x)
    return x[:n] + bytes(n - len(x[:n]))


def little_number(n, x):
    return int.from_bytes(first_bytes(n, x), "little")


def big_number(n, x):
    return int.from_bytes(first_bytes(n, x), "big")


# ---- constructors

CONS = []            # every constructor made, by its place


class Con:
    """what is known of a constructor: its name, its arity, its class, and the function that makes its values"""

    def __init__(self, name, arity, mixed=False):
        self.name, self.arity = name, arity
        short = name.split(".")[-1]
        slots = ["a%d" % i for i in range(arity)]

        def show(self, short=short, slots=slots):
            return "(%s)" % " ".join([short] + [repr(getattr(self, s)) for s in slots]) if slots else short
        self.cls = type(short, (), {"__slots__": slots, "__repr__": show, "con": self})
        if arity == 0:
            self.value = self.cls()
        else:
            tab = table()
            a = ",".join(slots)
            key = "(a0,type(a0))" if mixed else ("(%s,)" % a)
            env = {"tab": tab, "cls": self.cls}
            exec("def make(%s):\n k=%s\n o=tab.get(k)\n if o is None:\n  o=cls()\n  %s\n  tab[k]=o\n return o\n"
                 % (a, key, ";".join("o.%s=%s" % (s, s) for s in slots)), env)
            self.make = env["make"]
        CONS.append(self)


SOME, OK, ERR = Con("Some", 1, True), Con("Ok", 1, True), Con("Err", 1, True)
NO = Con("None", 0)
Some, Ok, Err, NONE = SOME.make, OK.make, ERR.make, NO.value


def is_some(o):
    return o is not NONE


def unwrap_or(o, d):
    return d if o is NONE else o.a0


def option_map(f, o):
    return NONE if o is NONE else Some(f(o.a0))


def option_or(o, other):
    return other if o is NONE else o


def result_ok(r):
    return Some(r.a0) if type(r) is OK.cls else NONE


def result_err(r):
    return Some(r.a0) if type(r) is ERR.cls else NONE


# ---- records: by their field names, whatever their type is called

SHAPES = {}


class Shape:
    def __init__(self, fields):
        self.fields = fields                       # sorted
        self.slots = ["f_" + f for f in fields]

        def show(self, slots=self.slots):
            return "{%s}" % "; ".join("%s = %r" % (s[2:], getattr(self, s)) for s in slots)
        self.cls = type("Rec", (), {"__slots__": self.slots, "__repr__": show, "shape": self})
        a = ",".join("x%d" % i for i in range(len(fields)))
        env = {"tab": table(), "cls": self.cls}
        exec("def make(%s):\n k=(%s,)\n o=tab.get(k)\n if o is None:\n  o=cls()\n  %s\n  tab[k]=o\n return o\n"
             % (a, a, ";".join("o.%s=x%d" % (s, i) for i, s in enumerate(self.slots)) or "pass"), env)
        self.make = env["make"]


def shape(fields):
    k = tuple(sorted(fields))
    s = SHAPES.get(k)
    if s is None:
        s = SHAPES[k] = Shape(k)
    return s


def rec(**fields):
    s = shape(fields)
    return s.make(*[fields[f] for f in s.fields])


def update(r, new):
    s = r.shape
    return s.make(*[new[f] if f in new else getattr(r, "f_" + f) for f in s.fields])


# ---- natively, in place of their definitions

def sha256(m):
    return hashlib.sha256(m).digest()


def sha384(m):
    return hashlib.sha384(m).digest()


HMACS = table()
XOR = {p: bytes(b ^ p for b in range(256)) for p in (0x36, 0x5c)}


def hmac(h, key, text):
    k = (h, key, text)
    v = HMACS.get(k)
    if v is None:
        d = h.f_digest
        short = key if len(key) <= h.f_block else d(key)
        padded = short + bytes(h.f_block - len(short))
        v = HMACS[k] = d(padded.translate(XOR[0x5c]) + d(padded.translate(XOR[0x36]) + text))
    return v


def ecb(key, block):
    from cryptography.hazmat.primitives.ciphers import Cipher, algorithms, modes
    e = Cipher(algorithms.AES(key), modes.ECB()).encryptor()
    return e.update(block) + e.finalize()


def crypt(key, iv, text):
    if not text:
        return b""
    n = -(-len(text) // 16)
    stream = ecb(key, b"".join(iv + (i + 2).to_bytes(4, "big") for i in range(n)))
    return bytes(a ^ b for a, b in zip(text, stream))


def tag_of(key, iv, aad, text):
    """the tag of a text as it is sent (the ciphertext): AESGCM is asked to seal what decrypts to it"""
    from cryptography.hazmat.primitives.ciphers.aead import AESGCM
    return AESGCM(key).encrypt(iv, crypt(key, iv, text), aad)[-16:]
