# What file_round prints, from the paper's words alone: python3 expected.py > ../stdout
import struct

PRIME = 4294967291
words = [struct.unpack("<Q", struct.pack("<d", 0.1))[0]] * 40
odd = [0x8000000000000000, 1, 0x800FFFFFFFFFFFFF, 0x7FF0000000000000, 0xFFF0000000000000, 0x7FEFFFFFFFFFFFFF]
words[0:6] = odd
words[6:9] = [0x7FF8000000000000] * 3  # a NaN of any pattern is written so
words[38] = 0x7FF8000000000000
words[39] = 0x0123456789ABCDEF
columns = [(5 * i + 3) % 8 for i in range(40)]
r, c = [3, 1, 7, 0, 5, 2, 6, 4], [6, 0, 2, 5, 1, 7, 4, 3]
b = [1.0, -2.5, 1e300, 0.0, -0.0, 3e-310, 7.0, 0.3]
payload = struct.pack("<2I9I40H40Q8H8H8d", 8, 40, *range(0, 41, 5), *columns, *words, *r, *c, *b)
blocks = []
for k in range(-(-len(payload) // 504)):
    body = payload[504 * k : 504 * k + 504].ljust(504, b"\0") + struct.pack("<I", k)
    check_a = sum(body) % 65521
    check_b = sum((508 - i) * x for i, x in enumerate(body)) % 65521
    blocks.append(body + struct.pack("<HH", check_a, check_b))
file = b"".join(blocks)
h = 1
for x in file:
    h = (h * 257 + x) % PRIME
assert len(file) == 1024
print("0 0\n" * 3 + f"{h:08x}\n{h:08x}\n17 1")
