#!/usr/bin/env python3
"""Compares signatures in two levels with those of this script, which shares no code with `ab_hss`.

usage: two_levels.py

The script has RFC 8554's algorithms for LMOTS_SHA256_N32_W4 and LMS_SHA256_M32_H10 as the standard words them, and the names and seeds
of bottom keys as docs/FORMATS.md states them. It reads the key, the public key and the digests of signatures from the tests of
`ab_hss`, makes those signatures itself, and tells which differ. It verifies each by section 6.3, and sees that none verifies with a bit
turned in the bottom public key. It also verifies the signature that the standard's appendix F has in its test case 2, by the key of
height 10, and makes the ABORT of `rows/hostile/an_abort_is_forged_two_levels` and the public keys of
`rows/keys/a_client_of_quorum_two_levels`. All take some fifteen seconds; the status is 1 if something differs."""

import hashlib
import re
import sys
from functools import cache

from programs import TOP, parser_of

TESTS = TOP / "crates" / "ab_sign_trials" / "src"
FORGED = TOP / "rows" / "hostile" / "an_abort_is_forged_two_levels.sched"
KEYS = TOP / "rows" / "keys" / "a_client_of_quorum_two_levels.out"
# The parameters of LMOTS_SHA256_N32_W4 and LMS_SHA256_M32_H10, and their type codes.
N, W, P, LS, H = 32, 4, 67, 4, 10
ONCE_TYPE, TREE_TYPE = 3, 6
D_PBLC, D_MESG, D_LEAF, D_INTR = (bytes([byte, byte]) for byte in (0x80, 0x81, 0x82, 0x83))
ONCE_LEN = 4 + N * (1 + P)
SIG_LEN = 4 + ONCE_LEN + 4 + N * H
KEY_LEN = 8 + 16 + N
# The numbers of the signatures whose digests the tests have, by the names there.
NUMBERS = {"FIRST": 0, "LAST_OF_FIRST_TREE": 1023, "FIRST_OF_SECOND_TREE": 1024, "LAST": 1_048_575}


def sha(*parts):
    return hashlib.sha256(b"".join(parts)).digest()


def u8(n):
    return n.to_bytes(1, "big")


def u16(n):
    return n.to_bytes(2, "big")


def u32(n):
    return n.to_bytes(4, "big")


def coefficients(digest):
    """The digits of a digest and of its checksum (section 4.4)."""
    digits = [digit for byte in digest for digit in (byte >> 4, byte & 15)]
    checksum = u16(sum(2**W - 1 - digit for digit in digits) << LS)
    return (digits + [digit for byte in checksum for digit in (byte >> 4, byte & 15)])[:P]


def chained(name, q, i, value, start, end):
    head = name + u32(q) + u16(i)
    for j in range(start, end):
        value = sha(head, u8(j), value)
    return value


def private(name, seed, q, i):
    """A one-time key's private value (appendix A)."""
    return sha(name, u32(q), u16(i), b"\xff", seed)


def leaf_key(name, seed, q):
    """A one-time public key (algorithm 1)."""
    return sha(name, u32(q), D_PBLC, *(chained(name, q, i, private(name, seed, q, i), 0, 2**W - 1) for i in range(P)))


@cache
def tree(name, seed):
    """The nodes of a tree, by their numbers (section 5.3)."""
    nodes = {2**H + q: sha(name, u32(2**H + q), D_LEAF, leaf_key(name, seed, q)) for q in range(2**H)}
    for r in range(2**H - 1, 0, -1):
        nodes[r] = sha(name, u32(r), D_INTR, nodes[2 * r], nodes[2 * r + 1])
    return nodes


def public(name, seed):
    return u32(TREE_TYPE) + u32(ONCE_TYPE) + name + tree(name, seed)[1]


def signature(name, seed, q, message, random):
    """The signature by leaf q (algorithms 3 and 5)."""
    digest = sha(name, u32(q), D_MESG, random, message)
    values = (chained(name, q, i, private(name, seed, q, i), 0, a) for i, a in enumerate(coefficients(digest)))
    nodes = tree(name, seed)
    path = (nodes[((2**H + q) >> i) ^ 1] for i in range(H))
    return u32(q) + u32(ONCE_TYPE) + random + b"".join(values) + u32(TREE_TYPE) + b"".join(path)


def verifies(key, message, sig):
    """Section 5.4.2, with the candidate of algorithm 4b."""
    if len(key) != KEY_LEN or len(sig) != SIG_LEN or key[:8] != u32(TREE_TYPE) + u32(ONCE_TYPE):
        return False
    name, root = key[8:24], key[24:]
    q, once, kind, path = int.from_bytes(sig[:4], "big"), sig[4 : 4 + ONCE_LEN], sig[4 + ONCE_LEN :][:4], sig[8 + ONCE_LEN :]
    if q >= 2**H or once[:4] != u32(ONCE_TYPE) or kind != u32(TREE_TYPE):
        return False
    digits = coefficients(sha(name, u32(q), D_MESG, once[4 : 4 + N], message))
    ends = (chained(name, q, i, once[4 + N * (1 + i) :][:N], a, 2**W - 1) for i, a in enumerate(digits))
    r = 2**H + q
    node = sha(name, u32(r), D_LEAF, sha(name, u32(q), D_PBLC, *ends))
    for i in range(H):
        other = path[N * i :][:N]
        node = sha(name, u32(r // 2), D_INTR, *((other, node) if r % 2 else (node, other)))
        r //= 2
    return node == root


def two_level_verifies(key, message, sig):
    """Section 6.3 with L = 2."""
    if len(key) != 4 + KEY_LEN or len(sig) != 4 + 2 * SIG_LEN + KEY_LEN or key[:4] != u32(2) or sig[:4] != u32(1):
        return False
    first, bottom, second = sig[4:][:SIG_LEN], sig[4 + SIG_LEN :][:KEY_LEN], sig[4 + SIG_LEN + KEY_LEN :]
    return verifies(key[4:], bottom, first) and verifies(bottom, message, second)


def random_of(name, seed, q):
    """How a signature's random bytes follow from its key."""
    return sha(name, u32(q), b"\xff\xfd", b"\xff", seed)


def two_level_signature(name, seed, number, message):
    t, i = divmod(number, 2**H)
    below_name = sha(u8(7), name, seed, u32(t))[:16]
    below_seed = sha(u8(8), name, seed, u32(t))
    bottom = public(below_name, below_seed)
    first = signature(name, seed, t, bottom, random_of(name, seed, t))
    second = signature(below_name, below_seed, i, message, random_of(below_name, below_seed, i))
    return u32(1) + first + bottom + second


def arrays_of(path):
    """The arrays of bytes that a file of tests names."""
    found = re.findall(r"const (\w+): \[u8; \d+\] = \[([^]]*)\]", path.read_text())
    return {name: bytes(int(byte, 16) for byte in re.findall(r"0x(\w\w)", values)) for name, values in found}


def texts_of(path):
    """The hexadecimal texts that a file of tests names, as bytes."""
    found = re.findall(r'const (\w+): &str = "([^"]*)"', path.read_text())
    return {name: bytes.fromhex(re.sub(r"[\\\s]", "", digits)) for name, digits in found}


def turned(sig):
    """The signature with a bit turned in the last byte of its bottom public key."""
    at = 4 + SIG_LEN + KEY_LEN - 1
    return sig[:at] + bytes([sig[at] ^ 1]) + sig[at + 1 :]


def key_of(replica):
    """The name and the seed of a replica's key, from the seed of zeros."""
    text = bytes(32) + u8(0) + u16(replica)
    return sha(u8(3), text)[:16], sha(u8(4), text)


def forged():
    """The ABORT of r3 that the row injects: what is signed, and the signature behind its length."""
    message = bytes.fromhex(re.search(r"^inject c0 06(\w+)$", FORGED.read_text(), re.MULTILINE).group(1))
    return message[:10], message[12:]


def checks():
    """Yields what is looked at, and whether it is so."""
    standard = texts_of(TESTS / "standard.rt")
    yield "the standard's signature", verifies(standard["PUBLIC"], standard["MESSAGE"], standard["SIGNATURE"])
    content, sig = forged()
    yield "the row's forged ABORT", sig == two_level_signature(*key_of(3), 0, content)
    publics = [bytes.fromhex(key) for key in re.findall(r"^public r\d (\w+)$", KEYS.read_text(), re.MULTILINE)]
    yield "the row's public keys", publics == [u32(2) + public(*key_of(r)) for r in range(4)]
    tests = TESTS / "two_levels.rt"
    given = arrays_of(tests)
    name, seed = given["ID"], given["SEED"]
    message = re.search(r'const MESSAGE: &\[u8\] = b"([^"]*)"', tests.read_text()).group(1).encode()
    key = u32(2) + public(name, seed)
    yield "the public key", key == given["PUBLIC"]
    for word, number in NUMBERS.items():
        sig = two_level_signature(name, seed, number, message)
        yield f"the bytes of signature {number}", sha(sig) == given[word]
        yield f"signature {number} verifies", two_level_verifies(key, message, sig)
        yield f"signature {number} with a bit turned in its bottom key doesn't", not two_level_verifies(key, message, turned(sig))


def main():
    parser_of(__doc__).parse_args()
    status = 0
    for what, so in checks():
        print(f"{what}: {'yes' if so else 'NO'}", flush=True)
        status |= not so
    sys.exit(status)


if __name__ == "__main__":
    main()
