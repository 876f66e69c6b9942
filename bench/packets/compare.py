"""Compares printed interleaved blocks with what tshark and GStreamer make of them, and with a count of their own.

compare.py LINES FOLDER: LINES is the output of main.txt; FOLDER is for the capture and the film that GStreamer gives back.
Ends with status 1 at the first difference.
"""
import struct
import subprocess
import sys

START = 4_294_900_000  # the timestamp of presentation number 0 in main.txt
FIRST = 65_500  # its first sequence number


def unframed(block):
    """What an interleaved block holds, a packet on channel 0 or a report on channel 1."""
    dollar, channel, length = struct.unpack(">BBH", block[:4])
    same("a block's first byte and length", (dollar, length), (0x24, len(block) - 4))
    return {0: "packet", 1: "report"}[channel], block[4:]


def read_lines(path):
    film, sent = b"", []
    for line in open(path):
        word, digits = line.split()
        if word == "film":
            film = bytes.fromhex(digits)
        else:
            sent.append(unframed(bytes.fromhex(digits)))
    return film, sent


def capture(path, sent):
    """A capture file of UDP packets: RTP at port 5004, RTCP at 5005."""
    with open(path, "wb") as out:
        out.write(struct.pack("<IHHiIII", 0xA1B2C3D4, 2, 4, 0, 0, 65535, 101))
        for number, (word, payload) in enumerate(sent):
            port = 5004 if word == "packet" else 5005
            udp = struct.pack(">HHHH", port, port, 8 + len(payload), 0) + payload
            ip = struct.pack(">BBHHHBBH4s4s", 0x45, 0, 20 + len(udp), number, 0, 64, 17, 0, b"\x7f\0\0\1", b"\x7f\0\0\1")
            out.write(struct.pack("<IIII", number, 0, len(ip + udp), len(ip + udp)) + ip + udp)


def shark(path, layer, fields):
    words = ["tshark", "-r", path, "-d", "udp.port==5004,rtp", "-d", "udp.port==5005,rtcp", "-Y", layer, "-T", "fields"]
    for field in fields:
        words += ["-e", field]
    text = subprocess.run(words, check=True, capture_output=True, text=True).stdout
    return [line.split("\t") for line in text.splitlines()]


def number(text):
    return {"True": 1, "False": 0}.get(text) if text in ("True", "False") else int(text, 0)


def same(what, one, other):
    if one != other:
        sys.exit(f"{what}: {one} isn't {other}")


def expected(payloads):
    """For each payload: sequence number, marker, timestamp, TR, S, B, E and P, by the start codes that it has itself."""
    rows, units, before = [], -1, 0
    heads = [p[:4] in (b"\0\0\1\xb3", b"\0\0\1\xb8", b"\0\0\1\0") for p in payloads]
    for place, payload in enumerate(payloads):
        if heads[place]:
            units += 1
            picture = payload.index(b"\0\0\1\0")
            temporal = payload[picture + 4] << 2 | payload[picture + 5] >> 6
            kind = payload[picture + 5] >> 3 & 7
            if b"\0\0\1\xb8" in payload[:picture]:
                before = units
        slices = [k for k in range(len(payload) - 3) if payload[k:k + 3] == b"\0\0\1" and 1 <= payload[k + 3] <= 0xAF]
        begin = bool(slices) and (slices[0] == 0 or heads[place])
        last = place + 1 == len(payloads) or heads[place + 1]
        end = last or payloads[place + 1][:3] == b"\0\0\1"
        end = end and (bool(slices) or not heads[place])
        stamp = (START + (before + temporal) * 3600) % 2**32
        rows.append([(FIRST + place) % 2**16, int(last), stamp, temporal, int(payload[:4] == b"\0\0\1\xb3"), int(begin), int(end), kind])
    return rows


def main():
    film, sent = read_lines(sys.argv[1])
    folder = sys.argv[2]
    path = f"{folder}/packets.pcap"
    capture(path, sent)
    packets = [payload for word, payload in sent if word == "packet"]
    payloads = [packet[16:] for packet in packets]
    same("the payloads together", b"".join(payloads) == film, True)
    same("the longest payload is at most 1,380", max(map(len, payloads)) <= 1380, True)
    # tshark 4.0 takes AN, N, S, B, E and P from the last byte of the video header, not from its third: these are read here.
    flags = [[p[14] >> 5 & 1, p[14] >> 4 & 1, p[14] >> 3 & 1, p[14] & 7, p[14] >> 6] for p in packets]
    fields = ["rtp.seq", "rtp.marker", "rtp.timestamp", "rtp.payload_mpeg_tr"]
    told = [[number(word) for word in row] for row in shark(path, "rtp", fields)]
    for place, (one, two, other) in enumerate(zip(told, flags, expected(payloads), strict=True)):
        same(f"packet {place}", one + two, other + [0])
    rest = shark(path, "rtp", ["rtp.version", "rtp.p_type", "rtp.ssrc", "rtp.payload_mpeg_mbz", "rtp.payload_mpeg_T"])
    for place, row in enumerate(rest):
        same(f"packet {place}, fixed fields", [number(word) for word in row], [2, 32, 0x01020304, 0, 0])
    fields = ["rtcp.senderssrc", "rtcp.timestamp.ntp.msw", "rtcp.timestamp.ntp.lsw", "rtcp.timestamp.rtp",
              "rtcp.sender.packetcount", "rtcp.sender.octetcount", "rtcp.sdes.text"]
    reports = shark(path, "rtcp", fields)
    frames, octets, pictures, found = 0, 0, 0, 0
    for word, payload in sent:
        if word == "report":
            ticks = pictures * 14400
            want = [0x01020304, ticks // 360000, ticks % 360000 * 2**32 // 360000, (START + pictures * 3600) % 2**32, frames, octets]
            same(f"report {found}", [number(x) for x in reports[found][:6]] + reports[found][6:], want + ["vodserve"])
            found += 1
        else:
            frames, octets = frames + 1, octets + len(payload) - 12
            pictures += payload[1] >> 7
    same("reports", found, len(reports))
    with open(f"{folder}/packets.stream", "wb") as out:
        for packet in packets:
            out.write(struct.pack(">H", len(packet)) + packet)
    caps = "application/x-rtp-stream,media=video,clock-rate=90000,encoding-name=MPV,payload=32"
    subprocess.run(["gst-launch-1.0", "-q", "filesrc", f"location={folder}/packets.stream", "!", caps, "!", "rtpstreamdepay", "!",
                    "rtpmpvdepay", "!", "filesink", f"location={folder}/back.mpg"], check=True)
    same("the film that GStreamer gives back", open(f"{folder}/back.mpg", "rb").read() == film, True)
    print(f"{len(packets)} packets and {found} reports of {len(film)} bytes: tshark and GStreamer agree")


main()
