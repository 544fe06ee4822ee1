#!/usr/bin/env python3
"""Writes the example shard files and what `covasluk open` has to print of them.

Every digest is from Python's hashlib, and every verdict is computed here from the rules in docs/RULES.md, with no use of
the program. Run from the repository's root: python3 tools/make_examples.py
"""
import functools
import hashlib
import operator
import os

CRATE = "crates/covasluk"
DEFAULTS = ("sha-256", "copy", "plain")
HASHES = {"sha-256": hashlib.sha256, "sha3-256": hashlib.sha3_256}


class Block:
    """A block with its parts; `body` is a payload for plain, a list of entries for listed."""

    def __init__(self, kind, digest, context, parent, height, body):
        self.kind, self.context, self.parent, self.height = kind, context, parent, height
        head = bytes([len(context)]) + context + parent + height.to_bytes(8, "big")
        if kind == "plain":
            self.bytes = head + len(body).to_bytes(2, "big") + body
            self.digest = digest(self.bytes)
            self.told = f"payload  {len(body)} bytes"
        else:
            self.bytes = head + len(body).to_bytes(2, "big")
            self.digest = digest(head)
            for entry in body:
                self.bytes += len(entry).to_bytes(2, "big") + entry
                self.digest = digest(self.digest + entry)
            self.told = f"entries  {len(body)}"


def wrapped(data):
    text = data.hex() if len(data) % 2 else data.hex().upper()
    return " ".join(text[i:i + 64] for i in range(0, len(text), 64))


def flip(data, at):
    return data[:at] + bytes([data[at] ^ 1]) + data[at + 1:]


class File:
    """A shard file and, beside it, the lines that the program has to print."""

    def __init__(self, name, title, hash_name, scheme, kind, minimum, extra, block, root):
        digest = lambda b: HASHES[hash_name](b).digest()
        self.name = name
        self.parts = [block.digest, root, digest(block.context)]
        commitment = " ".join([p.hex() for p in self.parts] + [f"{minimum:04x}", f"{extra:04x}"])
        names = [] if (hash_name, scheme, kind) == DEFAULTS else [f"hash {hash_name}", f"scheme {scheme}", f"kind {kind}"]
        self.lines = [f"# {title}"] + names + [f"# block digest, coding root, context digest, minimum {minimum}, extra {extra}",
                      f"commitment {commitment}"]
        self.shown = [f"file {name}", "commitment"]
        self.shown += [f"  {w:<8} {p.hex()}" for w, p in zip(("block", "root", "context"), self.parts)]
        self.shown += [f"  config   minimum {minimum}, extra {extra}", f"shards ({scheme}, {hash_name})"]

    def shard(self, index, sender, data, good, note=""):
        self.lines.append(f"shard {index} {sender} {wrapped(data)}" + (f"   # {note}" if note else ""))
        verdict = "good" if good else "bad"
        self.shown.append(f"  line {len(self.lines)}: index {index} from {sender}: {verdict}")

    def opens(self, block):
        self.shown += [f"block ({block.kind}), {len(block.bytes)} bytes", f"  context  {block.context.hex()}",
                       f"  parent   {block.parent.hex()}", f"  height   {block.height}", f"  {block.told}",
                       f"  digest   {block.digest.hex()}"]

    def ends(self, line):
        self.shown.append(line)


def sample(kind, digest):
    body = b"transfer 25 from north to south" if kind == "plain" else [b"transfer 25", b"", b"from north to south"]
    return Block(kind, digest, b"epoch 7, view 12", digest(b"the parent"), 4711, body)


def copies(hash_name, kind):
    """Two good copies, a damaged one, and one that is another block's."""
    digest = lambda b: HASHES[hash_name](b).digest()
    block = sample(kind, digest)
    config = bytes([0, 2, 0, 2])
    blob = block.bytes + config
    f = File(f"copy-{kind}-{hash_name}.shards", "copies: two good ones, a damaged one, and one that is not this block's",
             hash_name, "copy", kind, 2, 2, block, digest(blob))
    f.shard(1, "bob", flip(blob, 60), False, "one bit is wrong")
    f.shard(0, "alice", blob, True)
    other = Block("plain", digest, b"epoch 7, view 12", digest(b"another parent"), 4711, b"transfer 99")
    f.shard(3, "dave", other.bytes + config, False, "another block")
    f.shard(2, "carol", blob, True)
    f.shard(4, "eve", blob, False, "a good copy, but no such index")
    f.opens(block)
    return f


def parity_shards(digest, k, blob):
    """The root and the k + 1 shards of a blob: payload, then the path of siblings, lowest first."""
    size = -(-(len(blob) + 4) // k)
    data = (len(blob).to_bytes(4, "big") + blob).ljust(k * size, b"\0")
    payloads = [data[i * size:(i + 1) * size] for i in range(k)]
    payloads.append(bytes(functools.reduce(operator.xor, column) for column in zip(*payloads)))
    depth = (k).bit_length()
    level = [digest(p) for p in payloads] + [bytes(32)] * (2 ** depth - k - 1)
    paths = [b""] * (k + 1)
    for height in range(depth):
        paths = [path + level[(i >> height) ^ 1] for i, path in enumerate(paths)]
        level = [digest(level[i] + level[i + 1]) for i in range(0, len(level), 2)]
    return level[0], [p + path for p, path in zip(payloads, paths)]


def parities(hash_name, kind):
    """Three pieces and their exclusive or: one piece is damaged, and the others open the block."""
    digest = lambda b: HASHES[hash_name](b).digest()
    block = sample(kind, digest)
    root, shards = parity_shards(digest, 3, block.bytes + bytes([0, 3, 0, 1]))
    f = File(f"parity-{kind}-{hash_name}.shards", "three pieces and their exclusive or, one of them damaged",
             hash_name, "parity", kind, 3, 1, block, root)
    f.shard(3, "dave", shards[3], True, "the exclusive or")
    f.shard(1, "bob", flip(shards[1], 5), False, "one bit is wrong")
    f.shard(0, "alice", shards[0], True)
    f.shard(2, "eve", shards[0], False, "another index's shard")
    f.shard(2, "carol", shards[2], True)
    f.opens(block)
    return f


def parity_fault(name, title, number, k, data, limit=None):
    """Good shards of data that no blob has: the root covers them, and opening finds the fault."""
    digest = lambda b: hashlib.sha256(b).digest()
    block = sample("plain", digest)
    size = len(data) // k
    payloads = [data[i * size:(i + 1) * size] for i in range(k)]
    leaves = [digest(p) for p in payloads] + [digest(bytes(functools.reduce(operator.xor, c) for c in zip(*payloads)))]
    assert k == 1
    root = digest(leaves[0] + leaves[1])
    f = File(name, title, "sha-256", "parity", "plain", k, 1, block, root)
    if limit:
        f.lines.insert(1, f"limit {limit}")
    f.shard(0, "alice", payloads[0] + leaves[1], True)
    f.ends(f"fault: Coding({number})")
    return f


def parity_faults():
    return [
        parity_fault("bad-length.shards", "a length in front that the payload cannot have", "BadLength 3", 1, bytes([0, 0, 0, 9, 1, 2])),
        parity_fault("short-data.shards", "data under four bytes", "BadLength 3", 1, bytes([0, 0, 0])),
        parity_fault("parity-too-long.shards", "a blob over the limit", "TooLong 5", 1, bytes([0, 0, 0, 6]) + b"shards", limit=5),
    ]


def over_three(name, about, payloads):
    """A parity file of minimum 2 whose root is over three payloads as they are, and the three shards with their paths."""
    digest = lambda b: hashlib.sha256(b).digest()
    leaves = [digest(p) for p in payloads] + [bytes(32)]
    nodes = [digest(leaves[0] + leaves[1]), digest(leaves[2] + leaves[3])]
    f = File(name, about, "sha-256", "parity", "plain", 2, 1, sample("plain", digest), digest(nodes[0] + nodes[1]))
    siblings = [leaves[1] + nodes[1], leaves[0] + nodes[1], leaves[3] + nodes[0]]
    return f, [payload + path for payload, path in zip(payloads, siblings)]


def uneven():
    """Two good shards of different lengths: the tree is over payloads of two sizes."""
    f, shards = over_three("uneven.shards", "payloads of different lengths", [b"abcdef", b"abcd", b"zz"])
    f.shard(0, "alice", shards[0], True)
    f.shard(1, "bob", shards[1], True)
    f.ends("fault: Coding(Uneven 2)")
    return f


def padding():
    """A byte behind the blob that is not zero: length 1, so that two pieces of 3 bytes leave one byte of padding."""
    data = bytes([0, 0, 0, 1, 65, 7])
    payloads = [data[:3], data[3:], bytes(a ^ b for a, b in zip(data[:3], data[3:]))]
    f, shards = over_three("padding.shards", "padding that is not zero", payloads)
    f.shard(1, "bob", shards[1], True)
    f.shard(2, "carol", shards[2], True)
    f.ends("fault: Coding(Padding 4)")
    return f


def never_parity():
    """Two spares: no shard is good under parity then."""
    digest = lambda b: hashlib.sha256(b).digest()
    block = sample("plain", digest)
    root, shards = parity_shards(digest, 3, block.bytes + bytes([0, 3, 0, 2]))
    f = File("two-spares.shards", "a config that parity has no shards for", "sha-256", "parity", "plain", 3, 2, block, root)
    f.shard(0, "alice", shards[0], False)
    f.ends("not opened: 0 good, and the minimum is 3")
    return f


def too_few():
    digest = lambda b: hashlib.sha256(b).digest()
    block = sample("plain", digest)
    blob = block.bytes + bytes([0, 2, 0, 1])
    f = File("too-few.shards", "one good copy where two are wanted", "sha-256", "copy", "plain", 2, 1, block, digest(blob))
    f.shard(0, "alice", blob, True)
    f.shard(1, "bob", blob[:-1], False, "cut off")
    f.ends("not opened: 1 good, and the minimum is 2")
    return f


def wrong(name, title, line, blob_of, **change):
    """A blob that its own root covers, and that does not fit the commitment."""
    digest = lambda b: hashlib.sha256(b).digest()
    block = sample("plain", digest)
    blob = blob_of(block)
    for key, value in change.items():
        setattr(block, key, value)
    f = File(name, title, "sha-256", "copy", "plain", 1, 1, block, digest(blob))
    f.shard(0, "alice", blob, True)
    f.ends(line)
    return f


def misfits():
    good = lambda b: b.bytes + bytes([0, 1, 0, 1])
    return [
        wrong("codec.shards", "a byte behind the config", "fault: Codec", lambda b: good(b) + b"\0"),
        wrong("codec-zero.shards", "a config with a zero half", "fault: Codec", lambda b: b.bytes + bytes([0, 1, 0, 0])),
        wrong("digest.shards", "another block's digest", "fault: DigestMismatch", good, digest=bytes(32)),
        wrong("config.shards", "another config", "fault: ConfigMismatch", lambda b: b.bytes + bytes([0, 1, 0, 2])),
        wrong("context.shards", "another context", "fault: ContextMismatch", good, context=b"epoch 8, view 1"),
    ]


def too_long():
    digest = lambda b: hashlib.sha256(b).digest()
    block = sample("plain", digest)
    blob = block.bytes + bytes([0, 1, 0, 1])
    f = File("too-long.shards", "a blob over the limit", "sha-256", "copy", "plain", 1, 1, block, digest(blob))
    f.lines.insert(1, "limit 64")
    f.shard(0, "alice", blob, True)
    f.ends("fault: Coding(TooLong 5)")
    return f


def main():
    os.makedirs(f"{CRATE}/data", exist_ok=True)
    for old in os.listdir(f"{CRATE}/data"):
        os.remove(f"{CRATE}/data/{old}")
    files = [copies(h, k) for h in HASHES for k in ("plain", "listed")]
    files += [parities(h, k) for h in HASHES for k in ("plain", "listed")]
    files += parity_faults() + [uneven(), padding(), never_parity()]
    files += [too_few()] + misfits() + [too_long()]
    for f in files:
        with open(f"{CRATE}/data/{f.name}", "w") as out:
            out.write("\n".join(f.lines) + "\n")
    with open(f"{CRATE}/args", "w") as out:
        out.write("\n".join(["open"] + [f.name for f in files]) + "\n")
    with open(f"{CRATE}/stdout", "w") as out:
        out.write("\n".join(line for f in files for line in f.shown) + "\n")
    hash_run()


def hash_run():
    """The stored run of `covasluk hash`."""
    message = b"The quick brown fox jumps over the lazy dog\n" * 9
    with open(f"{CRATE}_hash/data/message.txt", "wb") as out:
        out.write(message)
    with open(f"{CRATE}_hash/args", "w") as out:
        out.write("hash\nsha3-256\nmessage.txt\n")
    with open(f"{CRATE}_hash/stdout", "w") as out:
        out.write(hashlib.sha3_256(message).hexdigest() + "  message.txt\n")


main()
