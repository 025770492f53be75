"""Parts of the cases that the benches time: keys, certificates, chains and wide tags. A case is one text with an access list, certificates, which
signatures are valid, and a question. All values are octets in canonical form: `group` makes a list, and `string` a string."""
import hashlib

from check import STAR, group, key, string
from shared import canonical
from spki_cert_tool.forms import Parser

NOW = string("2024-01-01_00:00:00")


def digest(octets):
    """The hash, as it is written, of octets."""
    return group(string("hash"), string("sha256"), string(hashlib.sha256(octets).digest()))


def name(principal, *names):
    """A name of a principal, as it is written, by its strings."""
    return group(string("name"), principal, *map(string, names))


def entry(subject, tag=STAR):
    """An entry for a subject and a tag, which may delegate."""
    return group(string("entry"), subject, group(string("propagate")), group(string("tag"), tag))


def certificate(issuer, subject, tag=STAR):
    """A certificate of a right from an issuer to a subject, which may delegate."""
    return group(
        string("cert"), group(string("issuer"), issuer), group(string("subject"), subject), group(string("propagate")),
        group(string("tag"), tag))


def definition(defined, subject):
    """A certificate by which a name stands for a subject. `defined` is the name, as `name` returns it."""
    return group(string("cert"), group(string("issuer"), defined), group(string("subject"), subject))


def case(entries, links, keys=(), asks=None):
    """A case of certificates. `links` has each with the key that signs it, `keys` are shown before them, and `asks`, which must be
    given, is the key that asks."""
    rows = [group(string("by"), signer, digest(octets), string("sig")) for octets, signer in links]
    items = [octets + group(string("signature"), digest(octets), signer, string("sig")) for octets, signer in links]
    return group(
        string("case"), group(string("acl"), *entries), group(string("accepted"), *rows), group(string("sequence"), *keys, *items),
        group(string("key"), asks), group(string("request"), string("ftp")), group(string("at"), NOW))


def keys_of(length):
    """The keys of a chain of so many certificates, which are one more."""
    return [key(f"k{place:05}") for place in range(length + 1)]


def by_hashes(length, asks=None):
    """A case of one entry and a chain of so many certificates, whose issuers are hashes of keys that are shown, and whose subjects are hashes.
    `asks` is the key that asks, by default the last one."""
    keys = keys_of(length)
    links = [(certificate(digest(issuer), digest(subject)), issuer) for issuer, subject in zip(keys, keys[1:])]
    return case([entry(digest(keys[0]))], links, keys[:-1], asks or keys[-1])


def by_keys(length, tag=STAR, entries=1, asks=None, turn=None):
    """A case of so many entries for the first key, and a chain of `length` certificates, each from one key to the next. All have the tag, but every
    second entry has `turn` if it is given. `asks` is the key that asks, by default the last one."""
    keys = keys_of(length)
    links = [(certificate(issuer, subject, tag), issuer) for issuer, subject in zip(keys, keys[1:])]
    listed = [entry(keys[0], turn or tag) if place % 2 else entry(keys[0], tag) for place in range(entries)]
    return case(listed, links, asks=asks or keys[-1])


def through_names(length, entries=1, asks=None):
    """A case of so many entries for the first key's friends, and a chain of `length` certificates. Each defines one key's friends as the next key's,
    and the last as the last key, which asks by default."""
    keys = keys_of(length)
    links = [(definition(name(issuer, "friends"), name(subject, "friends")), issuer) for issuer, subject in zip(keys, keys[1:-1])]
    links.append((definition(name(keys[-2], "friends"), keys[-1]), keys[-2]))
    return case([entry(name(keys[0], "friends"))] * entries, links, asks=asks or keys[-1])


def a_set(member, members=999):
    """The tag of a set with so many equal members."""
    return group(string("*"), string("set"), *[member] * members)


def parts_of(text):
    """The list, the sequence, the key, the request and the moment of a case, each in canonical form. A case is given in canonical form."""
    # (some lists here are longer than a text may be: so they are read by the parser of `spki-cert` and not by the model)
    _, acl, _, sequence, asker, request, moment, *_ = Parser(text, is_canonical=True).value(at=0, wanted="a value").value
    return [canonical(part) for part in (acl, sequence, asker[1], request[1], moment[1])]
