"""The files of all parties of a configuration, as docs/formats.md has them, by Python's hmac and hashlib."""

import hmac
from hashlib import sha256

FIRST_CLIENT = 256


def mac(key, text):
    return hmac.new(key, text, sha256).digest()


def be(number):
    return number.to_bytes(2, "big")


def key_between(seed, sender, receiver):
    return mac(seed, b"M" + be(sender) + be(receiver))


def signing_seed(seed, replica):
    return mac(seed, b"S" + be(replica))


def leaf(seed, number):
    """The digest of a leaf: that of its 512 public hashes."""
    hashes = (sha256(mac(seed, be(number) + be(bit) + bytes([value]))).digest() for bit in range(256) for value in (0, 1))
    return sha256(b"".join(hashes)).digest()


def public_key(seed):
    nodes = [leaf(seed, number) for number in range(64)]
    while len(nodes) > 1:
        nodes = [sha256(left + right).digest() for left, right in zip(nodes[::2], nodes[1::2])]
    return nodes[0]


def array(name, keys):
    return f"{name} = [\n" + "".join(f'    "{it.hex()}",\n' for it in keys) + "]\n"


def file_of(seed, faults, clients, period, party, publics):
    replicas = range(3 * faults + 1)
    others = [it for it in replicas if it != party]
    if party < FIRST_CLIENT:
        others += [FIRST_CLIENT + it for it in range(clients)]
    own = f'signing_seed = "{signing_seed(seed, party).hex()}"\n' if party < FIRST_CLIENT else ""
    return (
        f"checkpoint = {period}\nclients = {clients}\nf = {faults}\n"
        + array("from", [key_between(seed, it, party) for it in others])
        + f"party = {party}\n"
        + array("public", publics)
        + own
        + array("to", [key_between(seed, party, it) for it in others])
    )


def files_of(seed, faults, clients, period=16):
    """Each party's file by its name."""
    replicas = 3 * faults + 1
    publics = [public_key(signing_seed(seed, it)) for it in range(replicas)]
    names = [(f"r{it}.toml", it) for it in range(replicas)] + [(f"c{it}.toml", FIRST_CLIENT + it) for it in range(clients)]
    return {name: file_of(seed, faults, clients, period, party, publics) for name, party in names}
