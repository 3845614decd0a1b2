"""Who asks an endpoint: a request of Restate's is signed by a JWT (EdDSA over ed25519), whose audience is the path that is asked for. A worker
signs its requests by a key of its own (`Signer`)."""
import base64
import json
from typing import Any, Dict, List, Mapping, Optional, Sequence, Tuple

SCHEME, TOKEN, PREFIX = "x-restate-signature-scheme", "x-restate-jwt-v1", "publickeyv1_"
BASE58 = "123456789ABCDEFGHJKLMNPQRSTUVWXYZabcdefghijkmnopqrstuvwxyz"


def read_base58(text: str) -> bytes:
    number = 0
    for letter in text:
        number = number * 58 + BASE58.index(letter)
    zeros = len(text) - len(text.lstrip("1"))
    return bytes(zeros) + number.to_bytes((number.bit_length() + 7) // 8, "big")


def base58(content: bytes) -> str:
    number, text = int.from_bytes(content, "big"), ""
    while number:
        number, at = divmod(number, 58)
        text = BASE58[at] + text
    return "1" * (len(content) - len(content.lstrip(b"\0"))) + text


def read_key(told: str) -> Any:
    """A public key as Restate tells it; ValueError where it is none."""
    from cryptography.hazmat.primitives.asymmetric.ed25519 import Ed25519PublicKey

    if not told.startswith(PREFIX):
        raise ValueError(f"a key begins with {PREFIX}")
    content = read_base58(told[len(PREFIX) :])
    if len(content) != 32:
        raise ValueError("a key has 32 bytes")
    return Ed25519PublicKey.from_public_bytes(content)


def read_part(text: str) -> bytes:
    return base64.urlsafe_b64decode(text + "=" * (-len(text) % 4))


def claims_in(token: str, keys: Sequence[Any]) -> Optional[Dict[str, Any]]:
    """The claims of a token that one of the keys has signed, or None."""
    from cryptography.exceptions import InvalidSignature

    try:
        signed, _, signature = token.rpartition(".")
        head, _, claims = signed.partition(".")
        if json.loads(read_part(head)).get("alg") != "EdDSA":
            return None
        found = json.loads(read_part(claims))
        read_part(signature)
    except (ValueError, AttributeError, RecursionError):
        return None
    for key in keys:
        try:
            key.verify(read_part(signature), signed.encode())
            return found if isinstance(found, dict) else None
        except InvalidSignature:
            pass
    return None


def is_signed(headers: Mapping[str, str], path: str, keys: Sequence[Any], now: float) -> bool:
    """Whether a request is signed by one of the keys, for this path, at this time."""
    if headers.get(SCHEME) != "v1":
        return False
    claims = claims_in(headers.get(TOKEN, ""), keys)
    if claims is None:
        return False
    audience, begins, ends = claims.get("aud"), claims.get("nbf"), claims.get("exp")
    audiences: List[Any] = audience if isinstance(audience, list) else [audience]
    if not isinstance(begins, (int, float)) or not isinstance(ends, (int, float)):
        return False
    return path in audiences and begins <= now < ends


def part(content: bytes) -> str:
    return base64.urlsafe_b64encode(content).rstrip(b"=").decode()


class Signer:
    """A private key, as `openssl genpkey -algorithm ed25519` writes it, by which requests are signed; `key` is what an endpoint is told."""

    def __init__(self, pem: bytes) -> None:
        from cryptography.hazmat.primitives.asymmetric.ed25519 import Ed25519PrivateKey
        from cryptography.hazmat.primitives.serialization import Encoding, PublicFormat, load_pem_private_key

        private = load_pem_private_key(pem, None)
        if not isinstance(private, Ed25519PrivateKey):
            raise ValueError("the key is none of ed25519: `openssl genpkey -algorithm ed25519 -out FILE` makes one")
        self.sign = private.sign
        self.key = PREFIX + base58(private.public_key().public_bytes(Encoding.Raw, PublicFormat.Raw))

    def headers(self, path: str, now: float) -> List[Tuple[str, str]]:
        """What is sent with a request for this path, which holds for a minute, and for clocks that are a minute apart."""
        head = {"typ": "JWT", "alg": "EdDSA", "kid": self.key}
        claims = {"aud": path, "iat": int(now), "nbf": int(now) - 60, "exp": int(now) + 120}
        signed = ".".join(part(json.dumps(it).encode()) for it in (head, claims))
        return [(SCHEME, "v1"), (TOKEN, f"{signed}.{part(self.sign(signed.encode()))}")]
