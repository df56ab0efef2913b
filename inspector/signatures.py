"""Signatures of files, by `ssh-keygen -Y`: whoever has the operator's public key checks them."""
import subprocess
import tempfile

from texts import Ended, read_up_to, unreadable

NAMESPACE = "ride_dispatch"
MOST_BYTES = 1 << 20  # of a file of allowed signers that are looked at, to see whether it can be read


def run_keygen(*words: str, text: bytes = b"") -> subprocess.CompletedProcess:
    """Runs ssh-keygen on these words, with a text on its standard input."""
    try:
        return subprocess.run(["ssh-keygen", "-Y", *words], input=text, capture_output=True, check=False)
    except OSError as fault:
        raise Ended(2, "", f"ssh-keygen cannot be run: {fault.strerror}") from None


def sign(key: str, text: bytes) -> str:
    """Returns the signature of a text by a private key's file."""
    ran = run_keygen("sign", "-q", "-f", key, "-n", NAMESPACE, text=text)
    if ran.returncode != 0:
        last = ran.stderr.decode(errors="replace").strip().splitlines()[-1:]
        raise Ended(2, "", f"{key} does not sign: {''.join(last)}")
    return ran.stdout.decode()


def is_signed(signers: str, identity: str, text: bytes, signature: str) -> bool:
    """Returns whether the signature is one of the text by this identity of a file of allowed signers."""
    _, fault = read_up_to(signers, MOST_BYTES)
    if fault is not None:
        raise Ended(2, "", unreadable(signers, fault).message)
    with tempfile.NamedTemporaryFile(suffix=".sig") as kept:
        kept.write(signature.encode())
        kept.flush()
        ran = run_keygen("verify", "-f", signers, "-I", identity, "-n", NAMESPACE, "-s", kept.name, text=text)
    return ran.returncode == 0
