#!/usr/bin/env python3
"""Whether GStreamer, as a client of `rams-replay serve`, restores a stream byte for byte.

    tools/gstreamer_restores.py [PORT]     (5200, and the 800 ports from there on)

A stream of MPEG-TS in RTP goes to the server whole, and to the client without 0, 1, 5 and 10 packets in
100. The client is GStreamer alone: `rtpsession` asks by generic NACKs (RFC 4585, 6.2.1),
`rtprtxreceive` restores the retransmissions (RFC 4588), `rtpjitterbuffer` puts the packets in order.
All is on loopback. Debian has what it needs as gstreamer1.0-plugins-good, python3-gi and
gir1.2-gstreamer-1.0; where they aren't there, this says so and ends with status 77.
"""
import os
import random
import socket
import struct
import subprocess
import sys
import tempfile
import threading
import time

try:
    import gi

    gi.require_version("Gst", "1.0")
    from gi.repository import Gio, GLib, Gst
except (ImportError, ValueError):
    print("gstreamer_restores: no GStreamer for Python here (python3-gi, gir1.2-gstreamer-1.0)")
    sys.exit(77)

TOP = os.path.dirname(os.path.dirname(os.path.abspath(__file__)))
PROGRAM = os.environ.get("RAMS_REPLAY", f"{TOP}/rams-replay")
HOST, SSRC, PACKETS, EVERY = "127.0.0.1", 0x11223344, 2400, 0.0025
HEAD = b"""rams-trace 1 tick 10 link 1000000
channel 7 ssrc 11223344 pt 33 rtx 99 server aabbccdd seq0 500 ring 2048 window 8 access ts share 100000 reserve 60000 burst 20000 declared 6790 minwire 1358 limit 500 idle 3000 clients 100
end
"""
CLIENT = """
    rtpsession name=session rtp-profile=avpf
    funnel name=both ! rtprtxreceive name=restore ! rtpssrcdemux name=streams
    streams. ! rtpjitterbuffer name=order do-retransmission=true latency=1000 drop-on-latency=false ! appsink name=out sync=false emit-signals=true
    udpsrc name=media ! session.recv_rtp_sink
    session.recv_rtp_src ! both.
    udpsrc name=again ! both.
    session.send_rtcp_src ! udpsink name=asks sync=false async=false
"""
# (rtprtxreceive tells retransmissions by the type in the packet, so both ways have the same caps)
CAPS = "application/x-rtp,media=video,clock-rate=90000,encoding-name=MP2T,payload=33"


def packet(i):
    """Packet i of the stream, with a payload that no other has."""
    header = struct.pack(">BBHII", 0x80, 33, (65000 + i) & 0xFFFF, i * 225, SSRC)
    return header + (b"\x47\x01\x00\x10" + struct.pack(">I", i)).ljust(188, b"\xff") * 7


def send(live, media, loss, dice):
    """The first and last 50 packets reach the client, so that it knows what lies between them."""
    out, lost, began = socket.socket(socket.AF_INET, socket.SOCK_DGRAM), 0, time.monotonic()
    for i in range(PACKETS):
        time.sleep(max(0.0, began + i * EVERY - time.monotonic()))
        out.sendto(packet(i), (HOST, live))
        if 50 <= i < PACKETS - 50 and dice.random() < loss / 100:
            lost += 1
        else:
            out.sendto(packet(i), (HOST, media))
    return lost


def client(media, feedback):
    """The pipeline, and the list that it puts the packets into."""
    pipeline, got = Gst.parse_launch(CLIENT), []
    own = Gio.Socket.new(Gio.SocketFamily.IPV4, Gio.SocketType.DATAGRAM, Gio.SocketProtocol.UDP)
    own.bind(Gio.InetSocketAddress.new_from_string(HOST, 0), False)
    for name, properties in {
        "media": {"address": HOST, "port": media, "buffer-size": 1 << 20, "caps": Gst.Caps.from_string(CAPS)},
        "again": {"socket": own, "close-socket": False, "caps": Gst.Caps.from_string(CAPS)},
        "asks": {"socket": own, "close-socket": False, "host": HOST, "port": feedback},
    }.items():
        for key, value in properties.items():
            pipeline.get_by_name(name).set_property(key, value)
    types = Gst.Structure.from_string("application/x-rtp-pt-map,33=(uint)99")[0]
    pipeline.get_by_name("restore").set_property("payload-type-map", types)
    inner = pipeline.get_by_name("session").get_property("internal-session")
    # (what is lost is asked for at once, not at the next report)
    inner.set_property("rtcp-min-interval", 1)
    inner.set_property("bandwidth", 8e6)
    pipeline.get_by_name("session").connect("request-pt-map", lambda _, pt: Gst.Caps.from_string(CAPS))

    def take(sink):
        buffer = sink.emit("pull-sample").get_buffer()
        got.append(buffer.extract_dup(0, buffer.get_size()))
        return Gst.FlowReturn.OK

    pipeline.get_by_name("out").connect("new-sample", take)
    return pipeline, got


def trial(port, loss):
    """Whether the client gives each packet once, in order, with its own bytes."""
    media = port + 150  # (the server has the 128 from its port on)
    turns = str(PACKETS + 9000)
    with tempfile.TemporaryFile() as head, tempfile.TemporaryFile() as journal:
        head.write(HEAD)
        head.seek(0)
        server = subprocess.Popen([PROGRAM, "serve", str(port), turns], stdin=head, stdout=journal, stderr=subprocess.DEVNULL)
        pipeline, got = client(media, port + 1)
        pipeline.set_state(Gst.State.PLAYING)
        time.sleep(0.5)
        lost = send(port, media, loss, random.Random(loss))
        time.sleep(2)
        pipeline.set_state(Gst.State.NULL)
        server.kill()
        server.wait()
    want = [packet(i) for i in range(PACKETS)]
    is_whole = got == want
    print(f"loss {loss:2} %: {lost} of {PACKETS} packets lost, {len(got)} presented: " + ("byte for byte the stream" if is_whole else f"NOT the stream ({len(set(want) - set(got))} missing)"), flush=True)
    return is_whole


def main():
    Gst.init(None)
    missing = [it for it in ("rtpsession", "rtprtxreceive", "rtpjitterbuffer", "udpsrc") if not Gst.ElementFactory.find(it)]
    if missing:
        print(f"gstreamer_restores: GStreamer has no {missing[0]} here (gstreamer1.0-plugins-good)")
        return 77
    loop = GLib.MainLoop()
    threading.Thread(target=loop.run, daemon=True).start()
    port = int(sys.argv[1]) if len(sys.argv) > 1 else 5200
    results = [trial(port + 200 * i, loss) for i, loss in enumerate((0, 1, 5, 10))]
    return 0 if all(results) else 1


sys.exit(main())
