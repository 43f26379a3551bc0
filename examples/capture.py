#!/usr/bin/env python3
"""From captures and session descriptions of real senders to judged books, in three minutes on loopback.

    examples/capture.py [PORT]    (5000, and the two ports above it)

ffmpeg, GStreamer and VLC each send MPEG-TS over RTP (RFC 2250) to PORT for six seconds, and tshark or
tcpdump captures it. `pcap` makes a trace of it, and `run` a book. Judged is whether the trace has a
`live` line for each datagram that tshark counts, whether each packet is taken, and whether just the packets
that tshark says have the random access flag are access points: behind each packet a request is put into
the trace, whose answer names the newest one. Then come files that `pcap` refuses, and whether the commands
that it names convert them; and descriptions: what the senders write for `sdp`, and who reads what `describe` writes.

Capturing needs root. Debian has all as tshark, tcpdump, tcpreplay, ffmpeg, vlc-bin, vlc-plugin-base, python3-gi,
gstreamer1.0-tools, gstreamer1.0-plugins-good, -bad and -ugly, gstreamer1.0-libav, gir1.2-gst-rtsp-server-1.0.
What isn't there is named and passed over. The status is 1 where something is judged wrong.
"""
import os
import re
import shutil
import signal
import struct
import subprocess
import sys
import tempfile
import threading
import time

TOP = os.path.dirname(os.path.dirname(os.path.abspath(__file__)))
PROGRAM = os.environ.get("RAMS_REPLAY", f"{TOP}/rams-replay")
PORT = int(sys.argv[1]) if len(sys.argv) > 1 else 5000
HOST, SECONDS, TICK_MS, TYPE, RTX = "127.0.0.1", 6, 10, 33, 99
HEAD = f"rams-trace 1 tick {TICK_MS} link 10000000\n"
CHANNEL = (
    "channel 7 ssrc {ssrc:08x} pt 33 rtx 99 server aabbccdd seq0 500 ring 8192 window 8 access {access} share 1000000 "
    "reserve 30000 burst 300000 declared 200000 minwire 1358 limit 500 idle 3000 clients 100\n"
)
PICTURE = ["-f", "lavfi", "-i", "testsrc2=size=720x576:rate=25", "-t", str(SECONDS)]
SOUND = ["-f", "lavfi", "-i", "sine=frequency=440", "-t", str(SECONDS)]
X264 = ["-pix_fmt", "yuv420p", "-c:v", "libx264", "-preset", "veryfast", "-b:v", "3000k", "-maxrate", "3000k", "-bufsize", "1500k", "-g", "25"]
TO_PORT = f"rtp://{HOST}:{PORT}"
GST = "gst-launch-1.0 -q"
GST_PICTURE = (
    f"videotestsrc is-live=true num-buffers={25 * SECONDS} ! video/x-raw,width=720,height=576,framerate=25/1 ! "
    "x264enc bitrate=3000 key-int-max=25 option-string=scenecut=0 tune=zerolatency speed-preset=veryfast"
)
GST_SOUND = f"audiotestsrc is-live=true num-buffers={47 * SECONDS} samplesperbuffer=1024 ! audio/x-raw,rate=48000 ! avenc_aac ! aacparse"
GST_OUT = f"mpegtsmux name=m alignment=7 ! rtpmp2tpay pt={TYPE} ! udpsink host={HOST} port={PORT}"

wrong = []


def judge(good, what):
    if not good:
        wrong.append(what)
        print(f"  WRONG: {what}")


def has(*names):
    """Whether programs, and elements of GStreamer, are here."""
    missing = [it for it in dict.fromkeys(names) if not shutil.which(it) and output(["gst-inspect-1.0", "--exists", it]) is None]
    if missing:
        print(f"  ({' and '.join(missing)} not here: passed over)")
    return not missing


def words(command):
    return command.split() if isinstance(command, str) else command


def output(command):
    """What a command writes, or None where it isn't there, fails or has no end within ten seconds."""
    try:
        done = subprocess.run(words(command), stdin=subprocess.DEVNULL, capture_output=True, timeout=10)
    except (FileNotFoundError, subprocess.TimeoutExpired):
        return None
    return done.stdout if done.returncode == 0 else None


def replay(command, given):
    done = subprocess.run([PROGRAM, *command], input=given, capture_output=True)
    return done.returncode, done.stdout.decode(), done.stderr.decode()


def stop(process, how=signal.SIGTERM):
    if process.poll() is None:
        process.send_signal(how)
    try:
        process.wait(5)
    except subprocess.TimeoutExpired:
        process.kill()
        process.wait()


def capture(path, sender, tool=None, seconds=SECONDS + 6):
    """Captures what a sender sends."""
    tool = tool or (f"tshark -i lo -F pcap -a duration:{seconds + 4}" if shutil.which("tshark") else "tcpdump -i lo -U")
    filtered = [*tool.split(), "-w", path, *(["-f"] if "tshark" in tool else []), f"udp and portrange {PORT}-{PORT + 1}"]
    quiet = {"stdin": subprocess.DEVNULL, "stdout": subprocess.DEVNULL, "stderr": subprocess.DEVNULL}
    looking = subprocess.Popen(filtered, **quiet)
    time.sleep(1.5)
    sending = subprocess.Popen(words(sender), **quiet)
    try:
        sending.wait(seconds)
    except subprocess.TimeoutExpired:
        pass
    stop(sending)
    time.sleep(0.7)
    stop(looking, signal.SIGINT)


def fields(path, shown, *names):
    """The fields of the packets that a filter of tshark shows, a row for each."""
    named = [it for name in names for it in ("-e", name)]
    text = output(["tshark", "-r", path, "-d", f"udp.port=={PORT},rtp", "-Y", shown, "-T", "fields", *named])
    return [line.split("\t") for line in (text or b"").decode().splitlines()]


def ts_packets(packet):
    """The TS packets of an RTP packet without CSRCs and extension."""
    return [packet[i : i + 188] for i in range(12, len(packet) - 187, 188)]


def pid_of(ts):
    return struct.unpack(">H", ts[1:3])[0] & 0x1FFF


def section(ts):
    """The table of a TS packet that begins one."""
    at = 5 + ts[4] if ts[3] & 0x20 else 4
    return ts[at + 1 + ts[at] :]


class Stream:
    """What a sender sent, by the trace's lines."""

    def __init__(self, trace):
        self.live, self.feedback, self.ticks, self.tables = [], 0, [0], []
        self.markers, self.flagged, self.by_table = 0, {}, 0
        for line in trace.splitlines():
            if line.startswith("live "):
                packet = bytes.fromhex(line.split(" ")[2])
                self.live.append(packet)
                # (a retransmission's own header is two bytes longer, and 28 bytes of IP and UDP come with it)
                self.ticks[-1] += len(packet) + 30
                self.markers += packet[1] >> 7
                if 0 in map(pid_of, ts_packets(packet)):
                    self.tables.append(len(self.ticks))
            elif line.startswith("fb "):
                self.feedback += 1
            elif line == "tick":
                self.ticks.append(0)
        self.kinds = self.streams()
        for packet in self.live:
            self.look(packet)

    def streams(self):
        """What each PID carries, by the first tables."""
        tables, kinds = set(), {}
        for ts in (ts for packet in self.live for ts in ts_packets(packet)):
            if not ts[1] & 0x40:
                continue
            if pid_of(ts) == 0 and not tables:
                table = section(ts)
                tables.add(struct.unpack(">H", table[10:12])[0] & 0x1FFF)
            elif pid_of(ts) in tables and not kinds:
                table = section(ts)
                at, end = 12 + (struct.unpack(">H", table[10:12])[0] & 0xFFF), 3 + (struct.unpack(">H", table[1:3])[0] & 0xFFF) - 4
                while at < end:
                    kinds[struct.unpack(">H", table[at + 1 : at + 3])[0] & 0x1FFF] = "video" if table[at] in (1, 2, 0x1B, 0x24) else "audio"
                    at += 5 + (struct.unpack(">H", table[at + 3 : at + 5])[0] & 0xFFF)
        return kinds

    def look(self, packet):
        """Counts the flags of a packet, and whether a PAT stands in front of a picture's in it."""
        before = []
        for ts in ts_packets(packet):
            if ts[3] & 0x20 and ts[4] and ts[5] & 0x40:
                kind = self.kinds.get(pid_of(ts), "other")
                self.flagged[kind] = self.flagged.get(kind, 0) + 1
                self.by_table += kind == "video" and 0 in before
            before.append(pid_of(ts))

    def tell(self):
        peak, mean = max(self.ticks), sum(self.ticks) / len(self.ticks)
        flags = ", ".join(f"{count} of {kind}" for kind, count in sorted(self.flagged.items())) or "none"
        print(f"  {len(self.live)} packets of {min(map(len, self.live))} to {max(map(len, self.live))} bytes; {self.feedback} reports at the port above; markers: {self.markers}")
        waits = [b - a for a, b in zip(self.tables, self.tables[1:])]
        print(f"  random access flags: {flags}; {self.by_table} of those have a PAT in front in their packet; a PAT each {max(waits, default=0) * TICK_MS} ms at most")
        print(f"  a tick of {TICK_MS} ms has {mean:.0f} bytes in the mean and {peak} at most, {peak / mean:.1f} times as many")


def probed(trace):
    """The trace with a request for a burst and a goodbye behind each live packet."""
    request = f"fb 7 {(10 << 24 | 1) << 16} 86cd00030000c001%s01000000\n"
    lines = []
    for line in trace.splitlines(keepends=True):
        lines.append(line)
        if line.startswith("live "):
            lines += [request % line.split(" ")[2][16:24], f"fb 7 {(10 << 24 | 1) << 16} 81cb00010000c001\n"]
    return "".join(lines)


def access_points(trace):
    """How many packets `run` takes for access points."""
    _, book, _ = replay(["run"], probed(trace).encode())
    return len(set(re.findall(r" accept \d+ first (\d+) ", book)))


def walk(name, path):
    """From a capture to a book."""
    datagrams = fields(path, f"udp.dstport=={PORT}", "udp.length")
    reports = fields(path, f"udp.dstport=={PORT + 1}", "udp.length")
    rtp = fields(path, f"udp.dstport=={PORT} and rtp.ssrc", "rtp.ssrc", "rtp.marker")
    if not rtp:
        judge(False, f"{name}: nothing was captured")
        return None
    ssrc = int(rtp[0][0], 16)
    with open(path, "rb") as file:
        behind = file.read()
    for access in ("ts", "marker"):
        status, trace, said = replay(["pcap", str(PORT)], (HEAD + CHANNEL.format(ssrc=ssrc, access=access) + "end\n").encode() + behind)
        judge(status == 0, f"{name}: pcap ended with {status}: {said}")
        stream = Stream(trace)
        if access == "ts":
            stream.tell()
            wanted = len(fields(path, f"udp.dstport=={PORT} and mp2t.af.rai==1", "frame.number"))
        else:
            wanted = sum(marker in ("1", "True") for _, marker in rtp)
        judge(len(stream.live) == len(datagrams), f"{name}: {len(stream.live)} live lines of {len(datagrams)} datagrams")
        judge(stream.feedback == len(reports), f"{name}: {stream.feedback} fb lines of {len(reports)} datagrams")
        status, book, _ = replay(["run"], trace.encode())
        lines = book.splitlines()
        took = len(re.findall(r"^\d+ 7 took ", book, re.M))
        judge(status == 0 and took == len(datagrams), f"{name}: {took} packets are taken of {len(datagrams)}; {lines[-1]}")
        judge(" bad-feedback " not in book, f"{name}: a report isn't RTCP")
        found = access_points(trace)
        judge(found == wanted, f"{name}: {found} access points of {wanted}")
        print(f"  access {access}: {took} taken of {len(datagrams)}, {found} access points; the book: {' | '.join([*lines[:3], '..', lines[-1]])}")
    return ssrc


def senders(room):
    """Each sender's name, the tools that it needs and its command."""
    stream = f"{room}/stream.ts"
    if shutil.which("ffmpeg"):
        output(["ffmpeg", "-loglevel", "error", *PICTURE, *SOUND, *X264, "-c:a", "aac", "-f", "mpegts", stream])
    vlc = f"#rtp{{dst={HOST},port={PORT},mux=ts,sdp=file://{room}/vlc.sdp}}"
    rtp = ["-f", "rtp_mpegts", TO_PORT]
    cbr = ["-x264-params", "nal-hrd=cbr", "-minrate", "3000k", "-muxrate", "3600k"]
    loud = ["ffmpeg", "-re", *PICTURE, *SOUND, *X264, "-c:a", "aac"]
    return [
        ("ffmpeg, video", ["ffmpeg"], ["ffmpeg", "-re", *PICTURE, *X264, *rtp]),
        ("ffmpeg, video and audio", ["ffmpeg"], [*loud, *rtp]),
        ("ffmpeg, video and audio, a constant rate", ["ffmpeg"], [*loud, *cbr, *rtp]),
        ("GStreamer, video", ["gst-launch-1.0", "x264enc", "mpegtsmux", "rtpmp2tpay"], f"{GST} {GST_PICTURE} ! m. {GST_OUT}"),
        ("GStreamer, video and audio", ["gst-launch-1.0", "x264enc", "mpegtsmux", "rtpmp2tpay", "avenc_aac"], f"{GST} {GST_PICTURE} ! m. {GST_SOUND} ! m. {GST_OUT}"),
        ("VLC, video and audio", ["cvlc", "ffmpeg"], ["runuser", "-u", "nobody", "--", "env", f"HOME={room}", "cvlc", "-I", "dummy", "-q", stream, "--sout", vlc, "vlc://quit"]),
    ]


def take_captures(room):
    first = None
    for name, tools, command in senders(room):
        print(name)
        if not has(*tools, "tshark"):
            continue
        path = f"{room}/{len(os.listdir(room))}.pcap"
        capture(path, command)
        if walk(name, path) and first is None:
            first = path
    return first


def live_lines(path):
    """Of a capture file: status, live lines, last line, and what was said."""
    head = (HEAD + CHANNEL.format(ssrc=1, access="ts") + "end\n").encode()
    with open(path, "rb") as file:
        status, text, said = replay(["pcap", str(PORT)], head + file.read())
    return status, [it for it in text.splitlines() if it.startswith("live")], text.splitlines()[-1], said.strip()


def tell_refusal(name, path, wanted):
    """What is said of a file that is refused, and whether the commands that are named there convert it."""
    status, _, last, said = live_lines(path)
    print(f"  {name}: status {status}, {last}\n    {said}")
    commands = [it for it in re.findall("`([^`]+)`", said) if "OUT" in it or "RAW" in it]
    judge(status == 9 and commands, f"{name}: the file isn't refused, or nothing converts it")
    for command in commands:
        if not has(command.split()[0]):
            return
        names = {"FILE": path, "RAW": f"{path}.raw", "OUT": f"{path}.out"}
        output([names.get(it, it) for it in command.split()])
    if commands:
        _, lines, last, _ = live_lines(f"{path}.out")
        print(f"    converted: {len(lines)} live lines of {len(wanted)}, {last}")
        judge(lines == wanted and lines, f"{name}: the converted file has other packets")


# A sender of 20 packets.
SMALL = """
import socket, sys, time
out = socket.socket(socket.AF_INET, socket.SOCK_DGRAM)
for i in range(20):
    out.sendto(bytes([128, 33, 0, i]) + bytes(1324), ("127.0.0.1", int(sys.argv[1])))
    time.sleep(0.01)
"""


def refusals(room, first):
    """Files of other kinds, made of a capture, or captured beside one."""
    print("files that are refused")
    if not has("tshark", "tcpdump", "editcap") or first is None:
        return
    short = f"{room}/short.pcap"
    output(f"editcap -F pcap -r {first} {short} 1-200")
    wanted = live_lines(short)[1]
    for name, options in (("pcapng", "-F pcapng"), ("nanoseconds", "-F nsecpcap"), ("raw IP", "-F pcap -C 14 -L -T rawip")):
        path = f"{room}/{name.split()[0]}.pcap"
        output(["editcap", *options.split(), short, path])
        tell_refusal(name, path, wanted)
    for number, options in ((113, "-y LINUX_SLL"), (276, "-y LINUX_SLL2")):
        path, beside = f"{room}/any{number}.pcap", f"{room}/lo{number}.pcap"
        looking = threading.Thread(target=capture, args=(beside, "sleep 4", "tcpdump -i lo -U", 5))
        looking.start()
        capture(path, [sys.executable, "-c", SMALL, str(PORT)], f"tcpdump -i any -U {options}", 5)
        looking.join()
        tell_refusal(f"the device any ({number})", path, live_lines(beside)[1])
    with open(short, "rb") as whole, open(f"{room}/cut.pcap", "wb") as cut:
        cut.write(whole.read()[:-1])
    _, lines, last, said = live_lines(f"{room}/cut.pcap")
    print(f"  a byte is missing: {last}\n    {said}")
    judge(lines == wanted[:-1], "the cut file has other packets")


RTSP = """
import socket, sys, threading, time
import gi
for name in ("Gst", "GstRtspServer", "GstRtsp"): gi.require_version(name, "1.0")
from gi.repository import GLib, Gst, GstRtsp, GstRtspServer
Gst.init(None)
server, made = GstRtspServer.RTSPServer(), GstRtspServer.RTSPMediaFactory()
server.set_address("127.0.0.1"); server.set_service(sys.argv[1])
made.set_launch("( videotestsrc is-live=true ! x264enc tune=zerolatency ! mpegtsmux ! rtpmp2tpay name=pay0 pt=33 )")
made.set_profiles(GstRtsp.RTSPProfile.AVPF)
made.set_do_retransmission(True); made.set_retransmission_time(2 * Gst.SECOND)
server.get_mount_points().add_factory("/a", made); server.attach(None)
threading.Thread(target=GLib.MainLoop().run, daemon=True).start()
client = socket.create_connection(("127.0.0.1", int(sys.argv[1])), 5)
client.sendall(b"DESCRIBE rtsp://127.0.0.1/a RTSP/1.0\\r\\nCSeq: 1\\r\\nAccept: application/sdp\\r\\n\\r\\n")
time.sleep(2)
sys.stdout.write(client.recv(65536).decode().partition("\\r\\n\\r\\n")[2])
"""


def text_of(path):
    if os.path.exists(path):
        with open(path) as file:
            return file.read()
    return None


def written_by_ffmpeg(room):
    if has("ffmpeg"):
        output(["ffmpeg", "-loglevel", "error", "-f", "mpegtsraw", "-i", f"{room}/stream.ts", "-map", "0", "-c", "copy", "-f", "rtp", "-sdp_file", f"{room}/ffmpeg.sdp", TO_PORT])
    return text_of(f"{room}/ffmpeg.sdp")


def written_by_gstreamer(_):
    # (Debian's own Python has what Debian's packages bring)
    if has("/usr/bin/python3"):
        return (output(["/usr/bin/python3", "-c", RTSP, str(PORT + 2)]) or b"").decode()
    return None


def written_by_vlc(room):
    """VLC takes its description away at its end."""
    if not has("cvlc", "ffmpeg"):
        return None
    sending = subprocess.Popen(senders(room)[-1][2], stdin=subprocess.DEVNULL, stdout=subprocess.DEVNULL, stderr=subprocess.DEVNULL)
    text, until = None, time.monotonic() + 5
    while not text and time.monotonic() < until:
        time.sleep(0.1)
        text = text_of(f"{room}/vlc.sdp")
    stop(sending)
    return text


def completed(text):
    """A description with what it lacks, and the lines that were added or changed."""
    lines, more = text.replace("\r", "").splitlines(), []
    at = max(i for i, line in enumerate(lines) if line.startswith("m="))
    if "RTP/AVPF" not in lines[at]:
        lines[at] = lines[at].replace("RTP/AVP", "RTP/AVPF")
        more.append(lines[at])
    wanted = [f"a=rtcp-fb:{TYPE} nack rai", "a=ssrc:287454020 cname:rams"]
    if " rtx/" not in text:
        wanted += [f"m=video {PORT + 2} RTP/AVPF {RTX}", "c=IN IP4 127.0.0.1", f"a=rtpmap:{RTX} rtx/90000", f"a=fmtp:{RTX} apt={TYPE}"]
    wanted = [it for it in wanted if not (it.startswith("a=ssrc") and "a=ssrc:" in text)]
    return "\r\n".join(lines + wanted) + "\r\n", more + wanted


def read_descriptions(room):
    print("descriptions that senders write")
    head = HEAD + CHANNEL.format(ssrc=0, access="ts") + "end\n"
    for name, of in (("ffmpeg", written_by_ffmpeg), ("GStreamer's RTSP server", written_by_gstreamer), ("VLC", written_by_vlc)):
        text = of(room)
        if not text:
            print(f"  {name}: none")
            continue
        status, answer, _ = replay(["sdp"], (head + text).encode())
        print(f"  {name}: {' | '.join(it for it in text.split() if it)[:200]}\n    sdp: status {status}, {answer.splitlines()[-1]}")
        better, added = completed(text)
        status, answer, _ = replay(["sdp"], (head + better).encode())
        print(f"    with {' | '.join(added)}\n    sdp: status {status}, {answer.splitlines()[1][:60] if status == 0 else answer}")
        judge(status == 0 and f"pt {TYPE} rtx" in answer, f"{name}: the completed description isn't read")


def play(reader, room, text):
    """How many bytes of the stream a reader of a description gets within four seconds of ffmpeg's."""
    with open(f"{room}/played.sdp", "w", newline="") as file:
        file.write(text)
    out, quiet = f"{room}/played.ts", {"stdin": subprocess.DEVNULL, "stdout": subprocess.DEVNULL, "stderr": subprocess.DEVNULL}
    open(out, "w").close()
    sending = subprocess.Popen(["ffmpeg", "-re", *PICTURE, *X264, "-f", "rtp_mpegts", TO_PORT], **quiet)
    time.sleep(0.5)
    reading = subprocess.Popen(reader.format(f"{room}/played.sdp", out).split(), **quiet)
    time.sleep(SECONDS - 1)
    stop(reading, signal.SIGINT)
    stop(sending)
    return os.path.getsize(out)


def written_descriptions(room):
    print("who reads what describe writes")
    status, text, _ = replay(["describe", str(PORT)], (HEAD + CHANNEL.format(ssrc=0x11223344, access="ts") + "end\n").encode())
    judge(status == 0, f"describe ended with {status}")
    session = text.replace("t=0 0\r\n", f"c=IN IP4 {HOST}\r\nt=0 0\r\n")
    texts = (
        ("as it is", text),
        ("with a line c= in front of the sections", session),
        (f"with that, and {PORT + 2} for {PORT + 1} in its second section", session.replace(f"m=video {PORT + 1}", f"m=video {PORT + 2}")),
        ("with that, and without its second section", session[: session.index(f"m=video {PORT + 1}")]),
    )
    readers = (
        ("gst-launch-1.0", "gst-launch-1.0 filesrc location={} ! sdpdemux ! rtpmp2tdepay ! filesink location={}"),
        ("ffmpeg", "ffmpeg -y -protocol_whitelist file,udp,rtp -i {} -map 0:p:1 -c copy -f mpegts {}"),
    )
    for tool, reader in readers:
        if has(tool, "ffmpeg"):
            for name, it in texts:
                got = play(reader, room, it)
                print(f"  {tool}, {name}: {f'read, {got:,} bytes' if got else 'not read'}")


def main():
    # (it is built first, where it isn't there)
    subprocess.run([PROGRAM, "make", "1", "1"], stdout=subprocess.DEVNULL, check=True)
    if os.geteuid():
        print("capture.py: capturing needs root")
        sys.exit(1)
    for tool in (["tshark", "--version"], ["tcpdump", "--version"], ["ffmpeg", "-version"], ["gst-launch-1.0", "--version"], ["tcprewrite", "--version"]):
        if shutil.which(tool[0]):
            done = subprocess.run(tool, capture_output=True, text=True)
            print((done.stdout + done.stderr).splitlines()[0])
    with tempfile.TemporaryDirectory() as room:
        os.chmod(room, 0o777)
        first = take_captures(room)
        refusals(room, first)
        read_descriptions(room)
        written_descriptions(room)
    print("all is as it should be" if not wrong else f"{len(wrong)} things are wrong")
    sys.exit(1 if wrong else 0)


if __name__ == "__main__":
    main()
