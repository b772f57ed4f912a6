"""Texts at the limits of the grammar of bundles, and whether each is one: by hand, not by the reader."""

SOURCE = b"int main(){return 0;} int f(){assert(0);return 0;}"
NONE = "cube 0\n"
LEAST = "claim 0 fail 0\ncube 0\ncube 0\nmoves 0\n"


def text(claims=LEAST, many="1", assertion="1", source=SOURCE, size=None, head="smash-bundle 1\n"):
    size = len(source) if size is None else size
    return f"{head}source {size}\n".encode() + source + f"\nassert {assertion}\nclaims {many}\n{claims}".encode()


def claim(start=NONE, end=NONE, moves="", many=None, of="0", exit_text="fail 0"):
    many = many if many is not None else "1" if moves else "0"
    return text(f"claim {of} {exit_text}\n{start}{end}moves {many}\n{moves}")


def row(line):
    return claim(start=f"cube 1\nrow {line}\n")


def kill(certificate):
    return claim(moves=f"kill 0 0 0\n{certificate}")


def derived(line):
    return kill(f"close 1\nderive {line}\nrow 0 0\n")


def nested(deep, high):
    """So many branches, each in the low or in the high certificate of the one before."""
    return kill(("branch 0 0 0\n" + ("close 0\n" if high else "")) * deep + "close 0\n" + ("" if high else "close 0\n" * deep))


def columns(many):
    return "".join(f"{at} 1 " for at in range(many))


HEADS = [
    ("the least text", True, text()),
    ("no claim", True, text("", "0")),
    ("nothing", False, b""),
    ("another version", False, text(head="smash-bundle 2\n")),
    ("a line before", False, b"\n" + text()),
    ("a line behind", False, text() + b"\n"),
    ("a byte behind", False, text() + b"0"),
    ("without the last byte", False, text()[:-1]),
    ("carriage returns", False, text().replace(b"\n", b"\r\n")),
    ("a source of any bytes", True, text(source=bytes(range(256)))),
    ("no source", True, text(source=b"")),
    ("a source of 65,536 bytes", True, text(source=b" " * 65536)),
    ("a source of 65,537 bytes", False, text(source=b" " * 65537)),
    ("a source with a byte less", False, text(size=len(SOURCE) + 1)),
    ("a source with a byte more", False, text(size=len(SOURCE) - 1)),
    ("a size with a leading 0", False, text(size="050")),
    ("assertion 0", False, text(assertion="0")),
    ("assertion 2^32", True, text(assertion=str(2**32))),
    ("assertion 2^32 + 1", False, text(assertion=str(2**32 + 1))),
    ("a claim less", False, text(many="2")),
    ("a claim more", False, text(LEAST * 2)),
    ("2^64 - 1 claims", False, text(many=str(2**64 - 1))),
    ("2^64 claims", False, text(many=str(2**64))),
    ("a number of 5,000 digits", False, text(many="1" * 5000)),
]
CLAIMS = [
    ("procedure 2^32 - 1", True, claim(of=str(2**32 - 1))),
    ("procedure 2^32", False, claim(of=str(2**32))),
    ("procedure -1", False, claim(of="-1")),
    ("procedure -0", False, claim(of="-0")),
    ("procedure +1", False, claim(of="+1")),
    ("procedure 00", False, claim(of="00")),
    ("two blanks", False, claim(of=" 0")),
    ("a tab", False, claim(of="0\t")),
    ("a blank at the end of a line", False, claim(exit_text="fail 0 ")),
    ("a claim about returns", True, claim(exit_text="return")),
    ("a return with a number", False, claim(exit_text="return 0")),
    ("a failure without one", False, claim(exit_text="fail")),
    ("another exit", False, claim(exit_text="Fail 0")),
    ("assertion 2^32 in a claim", False, claim(exit_text=f"fail {2**32}")),
    ("a move less", False, claim(many="1")),
    ("a split", True, claim(moves="split 0 1 2\ncube 1\nrow 0 1\n")),
    ("a split by no atom", True, claim(moves="split 0 1 2\ncube 0\n")),
    ("a split of three regions", False, claim(moves="split 0 1 2 3\ncube 0\n")),
    ("edge 2^32", False, claim(moves=f"split {2**32} 1 2\ncube 0\n")),
    ("region 2^32 - 1", True, claim(moves=f"split 0 1 {2**32 - 1}\ncube 0\n")),
    ("a call with two certificates", True, claim(moves="call 0 1 2 3 2\nclose 0\nclose 0\n")),
    ("a call with one less", False, claim(moves="call 0 1 2 3 2\nclose 0\n")),
    ("a call of claim 2^32", False, claim(moves=f"call 0 1 2 {2**32} 0\n")),
    ("another move", False, claim(moves="drop 0 1 2\ncube 0\n")),
]
ROWS = [
    ("a row", True, row("2 0 1 5 -1 3")),
    ("columns that are equal", False, row("2 5 1 5 1 0")),
    ("columns that descend", False, row("2 5 1 4 1 0")),
    ("a coefficient 0", False, row("1 0 0 0")),
    ("column 2^32 - 1", True, row(f"1 {2**32 - 1} 1 0")),
    ("column 2^32", False, row(f"1 {2**32} 1 0")),
    ("coefficient 2^40", True, row(f"1 0 {2**40} 0")),
    ("coefficient -2^40", True, row(f"1 0 {-2**40} 0")),
    ("coefficient 2^40 + 1", False, row(f"1 0 {2**40 + 1} 0")),
    ("coefficient -2^40 - 1", False, row(f"1 0 {-2**40 - 1} 0")),
    ("constant 2^84", True, row(f"0 {2**84}")),
    ("constant -2^84", True, row(f"0 {-2**84}")),
    ("constant 2^84 + 1", False, row(f"0 {2**84 + 1}")),
    ("constant -2^84 - 1", False, row(f"0 {-2**84 - 1}")),
    ("constant -0", False, row("0 -0")),
    ("1,024 parts", True, row(f"1024 {columns(1024)}0")),
    ("1,025 parts", False, row(f"1025 {columns(1025)}0")),
    ("a part less", False, row("2 0 1 3")),
]
CERTIFICATES = [
    ("a derived row", True, derived("1 0 1 1")),
    ("multiplier 2^63 - 1", True, derived(f"1 0 {2**63 - 1} 1")),
    ("multiplier 2^63", False, derived(f"1 0 {2**63} 1")),
    ("multiplier -2^63", True, derived(f"1 0 {-2**63} 1")),
    ("multiplier -2^63 - 1", False, derived(f"1 0 {-2**63 - 1} 1")),
    ("multiplier 0, and numbers that descend", True, derived("2 7 0 3 0 1")),
    ("number 2^32", False, derived(f"1 {2**32} 1 1")),
    ("divided by 2^63 - 1", True, derived(f"0 {2**63 - 1}")),
    ("divided by 2^63", False, derived(f"0 {2**63}")),
    ("divided by -1", True, derived("0 -1")),
    ("1,025 multiples", True, derived(f"1025 {columns(1025)}1")),
    ("a branch at -2^63", True, kill(f"branch 0 0 {-2**63}\nclose 0\nclose 0\n")),
    ("a branch at 2^63", False, kill(f"branch 0 0 {2**63}\nclose 0\nclose 0\n")),
    ("a branch of column 2^32", False, kill(f"branch 0 {2**32} 0\nclose 0\nclose 0\n")),
    ("a branch with a certificate less", False, kill("branch 0 0 0\nclose 0\n")),
    ("512 branches in the low ones", True, nested(512, False)),
    ("513 branches in the low ones", False, nested(513, False)),
    ("512 branches in the high ones", True, nested(512, True)),
    ("513 branches in the high ones", False, nested(513, True)),
]
CASES = HEADS + CLAIMS + ROWS + CERTIFICATES
