#!/usr/bin/env python3
"""Seals a day: signed heads while its log grows, a receipt for a rider, and a signed manifest of all its files.

examples, with a key made by `ssh-keygen -t ed25519 -N '' -f operator` and a file `signers` that says `operator KEY`:
  tail -n +1 -f log | python3 inspector/seal.py heads - seals --every 100 --key operator
  python3 inspector/seal.py receipt log seals 17 > receipt.json
  python3 inspector/seal.py manifest manifest.json --key operator map.gr fleet.txt feed.txt log
  python3 inspector/seal.py check-receipt receipt.json --signers signers
  python3 inspector/seal.py check-heads log seals --signers signers
  python3 inspector/seal.py check-manifest manifest.json --signers signers map.gr fleet.txt feed.txt log

Status 0 where it is done or all holds, 1 where a check finds what does not hold, 2 where a file or a word is bad.
"""
import argparse
import hashlib
import json
import os
import platform
import sys
from pathlib import Path
from typing import Iterator

from chain import BEGINNING, Head, Receipt, heads, link, read_head, receipt_of
from check_log import MOST_LINE, lines_of, log_lines
from command_line import OneLineParser, run
from entries import read_head as read_head_of_log
from signatures import is_signed, sign
from texts import PIECE, Ended


def bad(path: object, fault: Exception) -> Ended:
    """Returns the end of a command whose file cannot be used."""
    return Ended(2, "", f"{path}: {getattr(fault, 'strerror', None) or fault}")


def shown(path: str | Path) -> str:
    """Returns a path as it can be printed, whatever its bytes are."""
    return os.fsencode(path).decode(errors="backslashreplace")


def read_file(path: str | Path) -> bytes:
    """Returns the bytes of a small file."""
    try:
        return Path(path).read_bytes()
    except OSError as fault:
        raise bad(path, fault) from None


def write_file(path: Path, text: bytes) -> None:
    """Writes a file and makes its folder where it is wanting."""
    try:
        path.parent.mkdir(parents=True, exist_ok=True)
        path.write_bytes(text)
    except OSError as fault:
        raise bad(path, fault) from None


def read_json(path: str) -> object:
    """Returns what a JSON file says."""
    try:
        return json.loads(read_file(path))
    except (ValueError, RecursionError):
        raise Ended(2, "", f"{path} is no JSON") from None


def whole_lines(path: str) -> Iterator[bytes]:
    """Yields the lines of a log that have their LF; `-` is standard input."""
    lines = lines_of(path, sys.stdin.buffer) if path == "-" else log_lines(path)
    try:
        for number, line in enumerate(lines, start=1):
            if number == 1 and read_head_of_log(line) is None:
                raise Ended(2, "", f"{path} is no trip log")
            if line.endswith(b"\n"):
                yield line
            elif len(line) > MOST_LINE:
                raise Ended(2, "", f"{path} has a line that is too long for a log")
    except Ended as end:
        raise Ended(2, "", end.message) from None


def seal_heads(words: argparse.Namespace) -> int:
    """Writes and signs a head after each so many lines and after the last."""
    head, signed = Head(0, BEGINNING), 0
    for head in heads(whole_lines(words.log)):
        if head.line % words.every == 0:
            write_head(words, head)
            signed = head.line
    if head.line > signed:
        write_head(words, head)
    return 0


def write_head(words: argparse.Namespace, head: Head) -> None:
    """Writes a head and its signature into the folder of heads and names it on standard output."""
    path = Path(words.seals) / f"head_{head.line:07}"
    if path.exists() and read_file(path) != head.text():
        raise Ended(1, "", f"{shown(path)} was signed over another log")
    write_file(path, head.text())
    write_file(path.with_suffix(".sig"), sign(words.key, head.text()).encode())
    print(shown(path), flush=True)


def kept_heads(folder: str) -> dict[int, tuple[Head, str]]:
    """Returns the heads of a folder with their signatures, by line."""
    paths = sorted(Path(folder).glob("head_*[0-9]"))
    if not paths:
        raise Ended(2, "", f"{folder} has no heads")
    told = [(read_head(read_file(path), str(path)), read_file(path.with_suffix(".sig"))) for path in paths]
    return {head.line: (head, signature.decode(errors="replace")) for head, signature in told}


def write_receipt(words: argparse.Namespace) -> int:
    """Writes the receipt of a line to standard output."""
    kept, lines, before = kept_heads(words.seals), [], BEGINNING
    last = min((line for line in kept if line >= words.line), default=0)
    for head, line in zip(heads(whole_lines(words.log)), whole_lines(words.log)):
        before = head.chain if head.line < words.line else before
        if words.line <= head.line <= last:
            lines.append(line)
    if not last or len(lines) != last - words.line + 1:
        raise Ended(2, "", f"no signed head of {words.seals} is over line {words.line} of {words.log}")
    head, signature = kept[last]
    text = lines[0].rstrip(b"\n").decode(errors="replace")
    receipt = Receipt(words.line, text, before, [link(line) for line in lines[1:]], head, signature)
    if not receipt.holds():
        raise Ended(1, "", f"{words.log} is not the log over which the heads of {words.seals} were signed")
    print(json.dumps(receipt.as_json()))
    return 0


def check_receipt(words: argparse.Namespace) -> int:
    """Checks a receipt."""
    receipt = receipt_of(read_json(words.receipt), words.receipt)
    if not receipt.holds():
        raise Ended(1, "the line does not lead to the head", f"{words.receipt} does not hold")
    if not is_signed(words.signers, words.identity, receipt.head.text(), receipt.signature):
        raise Ended(1, "the head is not signed by this identity", f"{words.receipt} does not hold")
    under = f"line {receipt.line} is under the head of line {receipt.head.line}, signed by {words.identity}"
    print(f"{under}: {receipt.text}")
    return 0


def check_heads(words: argparse.Namespace) -> int:
    """Checks a log beside the signed heads of a folder."""
    kept, last = kept_heads(words.seals), 0
    for head, signature in kept.values():
        if not is_signed(words.signers, words.identity, head.text(), signature):
            raise Ended(1, f"the head of line {head.line} is not signed by this identity",
                        f"{words.seals} does not hold")
    for head in heads(whole_lines(words.log)):
        last = head.line
        if head.line in kept and kept[head.line][0] != head:
            raise Ended(1, f"the log differs before its head of line {head.line}", f"{words.log} does not hold")
    if last < max(kept):
        raise Ended(1, f"the log ends at line {last}, before its head of line {max(kept)}",
                    f"{words.log} does not hold")
    print(f"lines {last} heads {len(kept)}, the last after line {max(kept)}: all hold")
    return 0


def digest(path: str) -> dict:
    """Returns the name, the size in bytes and the SHA-256 of a file."""
    sha, size = hashlib.sha256(), 0
    try:
        with open(path, "rb") as source:
            while piece := source.read(PIECE):
                sha.update(piece)
                size += len(piece)
    except OSError as fault:
        raise bad(path, fault) from None
    return {"name": Path(path).name, "bytes": size, "sha256": sha.hexdigest()}


def write_manifest(words: argparse.Namespace) -> int:
    """Writes and signs the manifest of these files."""
    told = {"manifest": 1, "python": platform.python_version(), "system": platform.platform(),
            "note": words.note, "files": [digest(path) for path in words.files]}
    text = (json.dumps(told, indent=1) + "\n").encode()
    write_file(Path(words.manifest), text)
    write_file(Path(words.manifest + ".sig"), sign(words.key, text).encode())
    print(f"{shown(words.manifest)}: {len(words.files)} files")
    return 0


def check_manifest(words: argparse.Namespace) -> int:
    """Checks files beside a signed manifest."""
    told, text = read_json(words.manifest), read_file(words.manifest)
    files = told.get("files") if isinstance(told, dict) else None
    if not isinstance(files, list):
        raise Ended(2, "", f"{words.manifest} is no manifest")
    signature = read_file(words.manifest + ".sig").decode(errors="replace")
    if not is_signed(words.signers, words.identity, text, signature):
        raise Ended(1, "the manifest is not signed by this identity", f"{words.manifest} does not hold")
    others = [path for path in words.files if digest(path) not in files]
    for path in others:
        print(f"{shown(path)} is none of the manifest's files")
    print(f"{len(words.files) - len(others)} of {len(words.files)} files are those of the manifest, which has {len(files)}")
    return 1 if others or not words.files else 0


def at_least_one(text: str) -> int:
    """Returns a number of lines, at least 1."""
    if not text.isdecimal() or not 1 <= int(text) <= 10**9:
        raise argparse.ArgumentTypeError(f"{text!r} is no number from 1 to 1,000,000,000")
    return int(text)


def words_of() -> argparse.Namespace:
    """Returns the words of the command line."""
    parser = OneLineParser(description=__doc__, formatter_class=argparse.RawDescriptionHelpFormatter)
    kinds = parser.add_subparsers(required=True, metavar="COMMAND", parser_class=OneLineParser)

    def add(name: str, command: object, positional: str, meaning: str) -> argparse.ArgumentParser:
        """Adds a command and returns its parser."""
        kind = kinds.add_parser(name, help=meaning, description=meaning)
        kind.set_defaults(command=command)
        for word in positional.split():
            kind.add_argument(word, metavar=word.upper(), type=at_least_one if word == "line" else str)
        if name.startswith("check"):
            kind.add_argument("--signers", required=True, help="the file of allowed signers: identities and public keys")
            kind.add_argument("--identity", default="operator", help="whose signature it has to be (default operator)")
        if name in ("heads", "manifest"):
            kind.add_argument("--key", required=True, help="the file of the private key that signs")
        return kind

    add("heads", seal_heads, "log seals", "sign heads of a log into a folder; - is standard input").add_argument(
        "--every", type=at_least_one, default=100, help="lines between two heads (default 100)")
    add("receipt", write_receipt, "log seals line", "write the receipt of a line to standard output")
    manifest = add("manifest", write_manifest, "manifest", "sign the SHA-256 of a day's files")
    manifest.add_argument("--note", default="", help="a line about the day, such as the program's version (default none)")
    manifest.add_argument("files", nargs="+", metavar="FILE", help="map, fleet file, feeds, log, program")
    add("check-receipt", check_receipt, "receipt", "check a receipt")
    add("check-heads", check_heads, "log seals", "check a log beside its signed heads")
    add("check-manifest", check_manifest, "manifest", "check files beside a manifest").add_argument(
        "files", nargs="+", metavar="FILE", help="files to look for in it")
    return parser.parse_args()


def main() -> int:
    """Returns the exit status."""
    words = words_of()
    return words.command(words)


if __name__ == "__main__":
    sys.exit(run(main))
