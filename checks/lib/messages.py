"""The messages of `td bench`: a second reading of docs/bench.md."""

FORMATS = ["ethernet", "ipv4", "tcp", "rndis"]


def little(*numbers: int) -> bytes:
    return b"".join(number.to_bytes(4, "little") for number in numbers)


def message(n: int) -> tuple[str, list[int], bytes]:
    """The entry point, the arguments and the bytes of message n."""
    payload = 13 * (n // 4) % 1400
    headers = [
        (12, bytes.fromhex("0800"), 0),
        (0, b"\x45\0" + (20 + payload).to_bytes(2, "big") + bytes.fromhex("0000000040060000"), 8),
        (12, bytes.fromhex("6002ffff00000000020405b4"), 0),
        (0, little(1, 44 + payload, 36, payload, *[0] * 7), 0),
    ]
    before, header, behind = headers[n % 4]
    content = bytearray((31 * n + 7 * place) % 256 for place in range(before)) + header
    end = len(content) + behind + payload
    content += bytes((31 * n + 7 * place) % 256 for place in range(len(content), end))
    return FORMATS[n % 4].upper(), [] if n % 4 == 0 else [end], bytes(content)
