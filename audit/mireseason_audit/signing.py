"""Reads keys of Ed25519, signs, and checks signatures."""

from collections.abc import Iterable
from pathlib import Path

from cryptography.exceptions import InvalidSignature, UnsupportedAlgorithm
from cryptography.hazmat.primitives.asymmetric.ed25519 import Ed25519PrivateKey, Ed25519PublicKey
from cryptography.hazmat.primitives.serialization import (
    Encoding,
    PublicFormat,
    load_pem_private_key,
    load_pem_public_key,
)

from .faults import Unreadable

LONGEST_KEY = 1 << 16  # bytes of a file that has a key


def pem_of(path: Path, whose: str) -> bytes:
    """The text of a key's file."""
    try:
        with path.open("rb") as file:
            return file.read(LONGEST_KEY)
    except OSError as fault:
        raise Unreadable("the %s %s can't be read: %s" % (whose, path, fault)) from None


def private_key(path: Path) -> Ed25519PrivateKey:
    """A private key in PEM, which no password protects."""
    pem = pem_of(path, "private key")
    try:
        key = load_pem_private_key(pem, password=None)
    except (TypeError, ValueError, UnsupportedAlgorithm) as fault:
        raise Unreadable("the private key %s can't be read: %s" % (path, one_line(fault))) from None
    if not isinstance(key, Ed25519PrivateKey):
        raise Unreadable("%s is no private key of Ed25519" % path)
    return key


def public_key(path: Path, whose: str = "public key") -> Ed25519PublicKey:
    """A public key in PEM."""
    pem = pem_of(path, whose)
    try:
        key = load_pem_public_key(pem)
    except (ValueError, UnsupportedAlgorithm) as fault:
        raise Unreadable("the %s %s can't be read: %s" % (whose, path, one_line(fault))) from None
    if not isinstance(key, Ed25519PublicKey):
        raise Unreadable("%s is no public key of Ed25519" % path)
    return key


def public_pem(key: Ed25519PrivateKey) -> bytes:
    """The public half of a key, in PEM."""
    return key.public_key().public_bytes(Encoding.PEM, PublicFormat.SubjectPublicKeyInfo)


def is_signed(text: bytes, signature: bytes, keys: Iterable[Ed25519PublicKey]) -> bool:
    """By one of the keys."""
    for key in keys:
        try:
            key.verify(signature, text)
            return True
        except InvalidSignature:
            continue
    return False


def one_line(fault: Exception) -> str:
    return " ".join(str(fault).split()) or type(fault).__name__
