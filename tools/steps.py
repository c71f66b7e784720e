# Writes the numbers of fcs_steps::STEPS again, from the polynomial; run in the repository's root, then rt fmt.
POLYNOMIAL = 0xEDB88320
PATH = "crates/fcs_steps/src/lib.rt"
START = "static STEPS: [[u32; 16]; 16] = [\n"
END = "];\n"


def bits(n, c):
    for _ in range(n):
        c = c >> 1 ^ (POLYNOMIAL if c & 1 else 0)
    return c


def row(j):
    numbers = ", ".join(f"0x{bits(64, k << 4 * j):08X}" for k in range(16))
    return f"    [{numbers}],\n"


text = open(PATH).read()
before, _, rest = text.partition(START)
_, _, after = rest.partition(f"\n{END}")
open(PATH, "w").write(before + START + "".join(row(j) for j in range(16)) + END + after)
