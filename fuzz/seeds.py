"""Writes fuzz/seeds: for each function a few inputs of the driver, most of them document 01's cards. python3 fuzz/seeds.py, from anywhere."""
import pathlib
import re

HERE = pathlib.Path(__file__).resolve().parent
NAMES = re.findall(r"^    X\((\w+),", (HERE / "fuzz.c").read_text(), re.M)
ROOMS = 0x43  # the exact room, twice
SALT = 5
RAW = b"\0"  # what follows are the input's own bytes


def seed(function, name, *parts, rooms=ROOMS):
    head = bytes([NAMES.index(function), rooms, SALT])
    (HERE / "seeds" / f"{function}-{name}").write_bytes(head + b"".join(p if isinstance(p, bytes) else bytes.fromhex(p) for p in parts))


def own(first, rest):
    """The first of two: its part of what is left is said by a byte."""
    left = len(first) + len(rest)
    share = next(b for b in range(256) if left * b // 255 == len(first))
    return RAW + bytes([share]) + first + rest


# Segments: pool size, pool, count, not wild; then kind, number, length and start of each. A number below 128 is one of the driver's edges.
EDGES = [0, 1, 13, 14, 15, 16, 255, 256, 257, 65535, 65536]
SIZES = {0: 0, 1: 1, 2: 2, 9: 3}


def segments(pool, *rows):
    out = bytes([SIZES[len(pool)]]) + pool + bytes([len(rows), 1])
    for kind, number, length, start in rows:
        # an odd kind without bytes takes eight more, for the two places that it does not use
        value = bytes([EDGES.index(number)]) if number in EDGES else bytes([128, number])
        out += bytes([kind]) + value[:1] + bytes([length]) + value[1:] + start.to_bytes(2, "big") + bytes(8 * (kind in (1, 3)))
    return out


for function in ("path_size", "write_path"):
    seed(function, "port-14", segments(b"\5", (5, 14, 1, 0)))
    seed(function, "port-15", segments(b"\5", (5, 15, 1, 0)))
    seed(function, "port-1-empty-link", segments(b"", (5, 1, 0, 0)))
    seed(function, "port-2-address", segments(b"10.0.0.7\0", (5, 2, 8, 0)))
    seed(function, "elements", segments(b"", (4, 255, 0, 0), (4, 256, 0, 0), (4, 65535, 0, 0), (4, 65536, 0, 0)))
    seed(function, "symbol", segments(b"Flow1\0\0\0\0", (0, 0, 5, 0)))

PATHS = {
    "port-14": "0E05", "port-15": "0F000F05", "port-1": "0100", "address": "120831302E302E302E37", "elements": "28FF 29000001 2900FFFF 2A0000000100",
    "symbol": "9105466C6F773100", "long-form": "21000500", "empty": "", "link-255": "11FF", "link-length-1": "11010500", "segments-128": "2001" * 128,
}
for function in ("check_path", "read_path"):
    for name, path in PATHS.items():
        seed(function, name, RAW, path)

READ = bytes.fromhex("200124013007")
seed("write_message", "read", "0E", own(READ, b"\x02\xAA\xBB"))
seed("write_message", "long", "0E", own(READ, b"\xFF\x01"))
seed("read_message", "read", RAW, "0E03200124013007")
seed("read_message", "data", RAW, "0E03200124013007AABB")
seed("read_message", "path-over-limit", RAW, "0E80")
ROUTE = bytes.fromhex("0100")
seed("write_unconnected_send", "odd", "03FA", own(ROUTE, b"\x03\x0E\x00\x01"))
seed("write_unconnected_send", "priority", "FFFA", own(ROUTE, b"\x02\x0E\x00"))
seed("read_unconnected_send", "even", RAW, "03FA 0200 0E00 01 00 0100")
seed("read_unconnected_send", "odd", RAW, "03FA 0300 0E0001 00 01 00 0100")
seed("read_unconnected_send", "left-over", RAW, "03FA 0200 0E00 01 00 0100 00")

seed("encode_parameters", "default", "08 02 01 01F8")
seed("encode_parameters", "size-511", "00 02 01 03")
seed("encode_parameters", "size-512", "00 02 01 04")
seed("decode_parameters", "small", "02 000045F8")
seed("decode_parameters", "large", "03 440001F8")
seed("encode_transport", "default", "01 02 03")
seed("decode_transport", "default", "A3")
seed("decode_transport", "class-7", "A7")
DEFAULT_PATH = "01 00 20 02 24 01"
FIELDS = "03FA 00000000 00000000 0001 00FF FFFFFFFF 03 00004240 {word} 00004240 {word} A3"  # as the driver takes them, high byte first
for function in ("write_forward_open", "write_open"):
    seed(function, "small", "F0", FIELDS.format(word="45F8"), RAW, DEFAULT_PATH)
    seed(function, "large", "F1", FIELDS.format(word="440001F8"), RAW, DEFAULT_PATH)
OPEN = "03FA 00000000 00000000 0100 FF00 FFFFFFFF 03 000000 40420000 {word} 40420000 {word} A3 03" + DEFAULT_PATH
seed("read_forward_open", "small", "00", RAW, OPEN.format(word="F845"))
seed("read_forward_open", "large", "01", RAW, OPEN.format(word="F8010044"))
seed("default_forward_open", "small", "00 0001")
seed("default_forward_open", "large", "01 FFFE")
seed("write_forward_close", "default", "03FA 0001 00FF FFFFFFFF", RAW, DEFAULT_PATH)
seed("read_forward_close", "default", RAW, "03FA 0100 FF00 FFFFFFFF 03 00", DEFAULT_PATH)

seed("read_reply", "extended-3", RAW, "8E0008010300")
seed("read_reply", "without-its-last-byte", RAW, "8E00080103")
seed("read_reply", "words-128", RAW, "8E000180")
seed("is_routing_error", "word-0204", "01 01")
seed("is_routing_error", "general-2", "02 00")
OPENED = "D4000000 01000000 02000000 3412 FF00 FFFFFFFF 40420000 40420000"
seed("read_forward_open_reply", "plain", "00", RAW, OPENED, "0000")
seed("read_forward_open_reply", "application-data", "00", RAW, OPENED, "0100 AABB")
seed("read_forward_open_reply", "one-byte-short", "00", RAW, OPENED, "0100 AA")
seed("read_forward_open_reply", "routing-failure", "01", RAW, "D400010104023412FF00FFFFFFFF03")
seed("read_forward_close_reply", "plain", "00", RAW, "CE000000 3412 FF00 FFFFFFFF 0000")
seed("read_forward_close_reply", "one-byte-short", "00", RAW, "CE000000 3412 FF00 FFFFFFFF 0100 AA")
seed("read_forward_close_reply", "failure", "00", RAW, "CE000100 3412 FF00 FFFFFFFF")
seed("write_forward_open_success", "application-data", "D4 1234 00FF FFFFFFFF 00000001 00000002 00004240 00004240 02 AABB")
seed("write_forward_open_success", "odd", "D4 1234 00FF FFFFFFFF 00000001 00000002 00004240 00004240 01 AA")
seed("write_forward_close_success", "application-data", "CE 1234 00FF FFFFFFFF 02 AABB")
seed("write_forward_close_success", "510", "CE 1234 00FF FFFFFFFF FA")
seed("write_forward_failure", "routing", "01 D4 03 0204 1234 00FF FFFFFFFF 03")
seed("write_forward_failure", "status-0", "00 D4 00 0000 1234 00FF FFFFFFFF 00")
seed("read_envelope", "unconnected", RAW, "0200 0000 0000 B200 0400 8E000000")
seed("read_envelope", "connected", RAW, "0200 A100 0400 01000000 B100 0600 0100 8E000000")
seed("read_envelope", "one-item", RAW, "0100 0000 0000")

BODY = "0200 0600 0E00 8E00010200000000 8E00000000004842"
seed("write_body", "two", "00 02 07 07")
seed("write_body", "spare", "60 03 00 01 02")
seed("read_body", "card", "01", RAW, BODY)
seed("read_body", "empty", "00", RAW, "0000")
seed("read_body", "left-over", "00", RAW, "000000")
seed("read_body", "falling", "00", RAW, "0200 0600 0500 AABB")
for function in ("body_item", "walk_item", "reply_item", "walk_reply"):
    seed(function, "first", "00 40", RAW, BODY)
    seed(function, "second", "00 41", RAW, BODY)
    seed(function, "past-the-last", "00 00", RAW, BODY)
seed("read_replies", "card", RAW, BODY)
seed("read_replies", "empty", RAW, "0000")
seed("join_bodies", "card", own(bytes.fromhex("01000400AA"), RAW + bytes.fromhex("01000400BBCC")))
seed("join_bodies", "empty", own(bytes.fromhex("0000"), RAW + bytes.fromhex("0000")))
seed("read_nested", "card", RAW, "0A02200224010200 0600 0E00 0E03200124013007 0E03200124013006")
seed("read_nested", "send", RAW, "520220062401 03FA 0800 0E03200124013007 01 00 0100")
deep = bytes.fromhex("0E00")
for _ in range(4):
    deep = bytes.fromhex("0A022002240101000400") + deep
seed("read_nested", "too-deep", RAW, deep)


def frame(*data):
    """As the driver takes it: how many bytes of data, then header and data without the length, which it writes itself."""
    return bytes([len(data), 0x6F, 0, *bytes(20), *data])


# A stream: an even byte, bytes behind the last frame, how many frames and the size of the cuts.
STREAM = frame() + frame(7) + frame(1, 2, 3, 4)
seed("take_scrap", "byte-by-byte", "00 00 03", STREAM)
seed("take_scrap", "cut-by-24", "00 00 2B", STREAM)
seed("take_scrap", "cut-anywhere", "00 05 83", STREAM)
seed("take_scrap", "too-long", "00 00 13", STREAM, rooms=0x40)
# One call: an odd byte, two that say what it is like, a frame, what is held of it.
seed("take_scrap", "frame-ends", "01 41 08", frame(1, 2, 3, 4), "05")
seed("take_scrap", "no-such-state", "01 41 F0", frame(1, 2, 3, 4), "05")
