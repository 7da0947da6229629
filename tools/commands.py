"""A signer by RFC 8554, LMS type 6 over LM-OTS type 4 with private strings by Appendix A, and the commands of document 01 in bytes.

It shares nothing with the library: what it makes tries the library from outside.
"""
import hashlib, struct
from itertools import zip_longest


def H(*parts):
    return hashlib.sha256(b"".join(parts)).digest()


def u16(n):
    return struct.pack(">H", n)


def u32(n):
    return struct.pack(">I", n)


def u64(n):
    return struct.pack(">Q", n)


def digits(I, message, leaf, C):
    Q = H(I, leaf, b"\x81\x81", C, message)
    return Q + u16(sum(255 - x for x in Q))


def step_count(digits):
    return sum(255 - d for d in digits)


def steps_of(I, message, signature):
    """The chain steps of a check."""
    return step_count(digits(I, message, signature[:4], signature[8:40]))


def walk(prefix, start, end, value):
    for j in range(start, end):
        value = H(prefix, bytes([j]), value)
    return value


class Signer:
    def __init__(self, seed, I):
        self.seed, self.I, self.leaf = seed, I, 0
        nodes = {1024 + q: H(I, u32(1024 + q), b"\x82\x82", self.leaf_key(q)) for q in range(1024)}
        for p in range(1023, 0, -1):
            nodes[p] = H(I, u32(p), b"\x83\x83", nodes[2 * p], nodes[2 * p + 1])
        self.nodes = nodes
        self.key = u32(6) + u32(4) + I + nodes[1]

    def prefix(self, q, i):
        return self.I + u32(q) + u16(i)

    def string(self, q, i):
        return H(self.prefix(q, i), b"\xff", self.seed)

    def leaf_key(self, q):
        ends = [walk(self.prefix(q, i), 0, 255, self.string(q, i)) for i in range(34)]
        return H(self.I, u32(q), b"\x80\x80", *ends)

    def sign(self, message, least=0, leaf=None):
        """A signature whose check takes at least so many chain steps, with this leaf, or with the next one."""
        q = self.leaf if leaf is None else leaf
        self.leaf += leaf is None
        C = H(b"C", self.seed, u32(q))
        while step_count(digits(self.I, message, u32(q), C)) < least:
            C = H(C)
        strings = [walk(self.prefix(q, i), 0, d, self.string(q, i)) for i, d in enumerate(digits(self.I, message, u32(q), C))]
        node, path = 1024 + q, []
        while node > 1:
            path.append(self.nodes[node ^ 1])
            node //= 2
        return u32(q) + u32(4) + C + b"".join(strings) + u32(6) + b"".join(path)


def clock(t):
    return b"\x01" + u64(t)


def establish(n, first, second, c, b, delay):
    return b"\x02" + u16(n) + first + second + u64(c) + u64(b) + u32(delay)


def fund(op, n, cents):
    return bytes([op]) + u16(n) + u64(cents)


def settle(n):
    return b"\x0a" + u16(n)


def signed(op, id, n, operands, *signers, least=0, leaves=()):
    """A command with the signatures of its signers, in their order, each of at least so many steps and with the leaf named for it, if one is."""
    message = bytes([op]) + id + u16(n) + operands
    return bytes([op]) + u16(n) + operands + b"".join(signer.sign(message, least, leaf) for signer, leaf in zip_longest(signers, leaves))


# Where the first signature of a command stands.
SIGNATURE_AT = {5: 3, 6: 19, 7: 51, 8: 3, 9: 35}
SIGNATURE = 1452


def spoiled(data, *places):
    """The command with a bit changed in each of the signatures named: 0 is the first, 1 the second."""
    changed = bytearray(data)
    for i in places:
        changed[SIGNATURE_AT[data[0]] + SIGNATURE * i + 100] ^= 1
    return bytes(changed)


def flipped(data, at, bit=0):
    """The bytes with one bit changed."""
    return data[:at] + bytes([data[at] ^ 1 << bit]) + data[at + 1 :]


class Journal:
    """The commands after a book's id, and the lines that the statement must print for them; its book is opened plainly, so every fee is 0."""

    def __init__(self, id):
        self.id, self.commands, self.lines = id, [], []

    def file(self, data, refusal=0, customer=0, merchant=0, checked=()):
        """A command, and its line. `checked` names whose signatures are checked, a failing one included."""
        steps = 0
        for i, signer in enumerate(checked):
            start = SIGNATURE_AT[data[0]]
            message = data[:1] + self.id + data[1:start]
            steps += steps_of(signer.I, message, data[start + SIGNATURE * i :])
        self.commands.append(data)
        self.lines.append(f"{len(self.lines) + 1} {refusal} {customer} {merchant} {steps} 0\n")

    def save(self, journal, statement, rest=b"", cause=0):
        """Writes both files; `rest` is what the journal holds after its last command, and why the run stops there."""
        commands = b"".join(self.commands)
        assert 16 + len(commands) + len(rest) <= 65536
        with open(journal, "wb") as file:
            file.write(self.id + commands + rest)
        with open(statement, "w") as file:
            file.write("".join(self.lines) + f"end {len(commands)} {cause}\n")
