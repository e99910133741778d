"""What goes over a LIN bus beside the data, as docs/LIN.md has it: the protected identifier and the enhanced checksum. This is for show and decides
nothing.
"""


def protected(id_):
    bit = [id_ >> k & 1 for k in range(6)]
    return id_ & 63 | (bit[0] ^ bit[1] ^ bit[2] ^ bit[4]) << 6 | (1 ^ bit[1] ^ bit[3] ^ bit[4] ^ bit[5]) << 7


def checksum(id_, data):
    """Of the protected identifier and the data: what goes over eight bits is added again, and the sum is inverted."""
    total = protected(id_)
    for byte in data:
        total += byte
        total = total % 256 + total // 256
    return 255 - total
