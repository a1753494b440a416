"""What the tools share that hold something against the oracle: generated files, and what the oracle says of them."""
import itertools
import pathlib
import struct

import command

ROOT = pathlib.Path(__file__).resolve().parent.parent
ORACLE = ROOT / "oracle/target/release/oracle"
GENERATE = ROOT / "oracle/target/release/generate"
KINDS = ["--small", "--medium", "--large", "--sums", "--damaged", "--limits"]
GROUP = 500


def stream(data):
    """the files of a stream: each a 32-bit length, lowest byte first, then its bytes"""
    at = 0
    while at < len(data):
        size = int.from_bytes(data[at:at + 4], "little")
        at += 4 + size
        if at > len(data):
            raise command.Failed("this is not a stream of files: the last one is cut off")
        yield data[at - size:at]


def frames(files):
    """a stream of these files"""
    return b"".join(struct.pack("<I", len(file)) + file for file in files)


def generated(*words):
    """the files that the generator makes of these words"""
    if not GENERATE.exists():
        raise command.Failed("build the oracle first: (cd oracle && cargo build --release --offline)")
    return list(stream(command.call([GENERATE, *map(str, words)])))


def all_kinds(seed, count):
    """the fixed list, and so many generated files of each kind, the limits included"""
    return itertools.chain(generated("--fixed"), *(generated(seed, count, kind) for kind in KINDS))


def grouped(files):
    """the files in groups that one process is handed at once"""
    files = list(files)
    return [files[at:at + GROUP] for at in range(0, len(files), GROUP)]


def said(files, *flags, program=None):
    """what the oracle, or a program like it, says of each file"""
    program = program or ORACLE
    blocks = command.call([program, "--many", *flags], input=frames(files)).split(b"--\n")[:-1]
    if len(blocks) != len(files):
        raise command.Failed(f"{program}: {len(blocks)} answers of {len(files)} files", 1)
    return blocks
