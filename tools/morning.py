#!/usr/bin/env python3
"""Writes the stored run of `replay` (crates/replay/stdin): a hotel's morning. Later calls carry octets that earlier calls gave, so the calls are
asked one after the other of a program that replays calls. `tools/morning.py PROGRAM > crates/replay/stdin`, and `PROGRAM < crates/replay/stdin > crates/replay/stdout`; the outside implementation was the
program."""
import hashlib
import hmac
import subprocess
import sys

PROGRAM = sys.argv[1]
HOTEL, NEIGHBOUR, STRANGER = 0x00D0A1B2C3D4, 0x00D0A1B2C3D5, 0x00D0A1B2C3FF
LOBBY, ROOMS, BAKERY = 8800, 8801, 8900
# the AUTH-Keys of the hotel's authorization keys 0 and 1
AUTH_KEYS = "00112233445566778899aabbccddeeff", "ffeeddccbbaa99887766554433221100"
calls = [
    "life,grace,aklife,akgrace,authorize,reauthorize,operational,rekey,reject",
    "1800,300,86400,600,10,10,1,1,60",
    "address,said",
    "%d,%d" % (HOTEL, LOBBY),
]


def answers():
    return subprocess.run([PROGRAM], input="\n".join(calls) + "\n", capture_output=True, text=True, check=True).stdout.split("\n")


def call(text):
    """the fields that a call gives after its number"""
    calls.append(text)
    return answers()[len(calls) - 5].split(",")[1:]


def messages(field):
    """the messages in a field, one after the other"""
    out = []
    while field:
        n = 2 * (4 + int(field[4:8], 16))
        out.append(field[:n])
        field = field[n:]
    return out


def material(tag, saids):
    """64 octets for each SAID that tell which listing or clock call they came with: its number, the SAID's place, and a count"""
    return "".join("%02x%02x" % (tag * 16 + k, i) for k in range(saids) for i in range(32))


def message_key(pad, ak): return hashlib.sha1(bytes([pad]) * 64 + bytes.fromhex(AUTH_KEYS[ak])).hexdigest()
def up_key(ak=0): return message_key(0x5C, ak)
def down_key(ak=0): return message_key(0x3A, ak)


def up(octets, address=HOTEL, ak=0):
    """a message that names the authorization key `ak`, or an Authorization Request that gets it"""
    return call("up,%d,%s,%s,%s,%s" % (address, up_key(ak), down_key(ak), AUTH_KEYS[ak], octets))


def down(octets, ak=0, own=0, key=None):
    """the same; `own` is the modem's authorization key, under which it writes; or it is read with another key"""
    return call("down,%s,%s,%s" % (key or down_key(ak), up_key(own), octets))


def with_digest(octets):
    """the message with an attribute of type 11 before the others: 20 octets of any value"""
    return octets[:4] + "%04x" % (int(octets[4:8], 16) + 23) + "0b0014" + "5a" * 20 + octets[8:]


def renumbered(octets, identifier, ak=0):
    """a Key Request with another Identifier, and the digest that it has then"""
    head = octets[:2] + "%02x" % identifier + octets[4:-46]
    return head + octets[-46:-40] + hmac.new(bytes.fromhex(up_key(ak)), bytes.fromhex(head), hashlib.sha1).hexdigest()


def clock(second, tag): return call("clock,%d,%s,%s" % (second, material(tag, 3), up_key()))
def seal_down(said): return call("sealdown,%d,%d" % (HOTEL, said))[0]
def seal_up(said): return (call("sealup,%d" % said) + [""])[0]
def open_down(said, number, direction=1): return call("opendown,%d,%d,%d,%s,%s" % (direction, HOTEL, said, number, up_key()))
def open_up(said, number, direction=0, ak=0): return call("openup,%d,%d,%d,%s,%s" % (direction, HOTEL, said, number, down_key(ak)))


# the head-end's list
call("list,%d,1,%s,%d,256,%d,768" % (HOTEL, material(1, 2), LOBBY, ROOMS))
call("list,%d,0,%s,%d,256" % (NEIGHBOUR, material(2, 1), BAKERY))
call("list,%d,1,%s,%d,256" % (STRANGER, material(3, 1), LOBBY))
clock(5, 3)

# authorization
info, request = messages(call("established")[0])
up(info)
reply = up(request)[0]
up(request, address=NEIGHBOUR)
up(request, address=STRANGER)
lobby, rooms = messages(down(reply)[0])

# the first keys: the answer for the rooms is lost, and asked for again
down(up(lobby)[0])
lost = up(rooms)[0]
again = clock(6, 4)[0]
assert again == rooms
found = up(again)[0]
down(found, key=up_key())
down(found)
down(lost)

# frames both ways, at both widths
open_down(LOBBY, seal_down(LOBBY))
open_up(LOBBY, seal_up(LOBBY))
open_down(ROOMS, seal_down(ROOMS))
open_up(ROOMS, seal_up(ROOMS))

# what is refused
open_down(LOBBY, 0, direction=0)
open_up(BAKERY, 0)
clock(4, 5)
call("clock,7,%s,%s" % (material(5, 2), up_key()))
up(lobby[:24])
down(request)
call("good morning")
changed = lobby[:2] + "2a" + lobby[4:]
assert up(changed)[0] == "0a2a000410000105"
call("clock,7,%s,%s" % (material(5, 3), up_key()[:38]))

# a forged frame: the modem drops its keys and asks for the pair again
forged = open_down(LOBBY, 9)[0]
seal_up(LOBBY)
down(up(forged)[0])
open_up(LOBBY, seal_up(LOBBY))

# a forged frame to the head-end, which tells the modem that its key is no good
told = open_up(ROOMS, 9)[0]
asked = down(told)[0]
down(up(asked)[0])
open_up(ROOMS, seal_up(ROOMS))

# the rollover
clock(899, 6)
late = seal_down(LOBBY)
open_down(LOBBY, late)
crossing = seal_up(LOBBY)
clock(900, 7)
open_up(LOBBY, crossing)
open_down(LOBBY, seal_down(LOBBY))
pairs = [up(m)[0] for m in messages(clock(1500, 8)[0])]
for m in pairs:
    down(m)
clock(1800, 9)
open_down(LOBBY, seal_down(LOBBY))

# a frame that comes far too late: its key is gone
asked = open_down(LOBBY, late)[0]

# the pair of 1,500 again, with the Identifier of the request that waits: it was put into the digest's sum with another, and is refused
assert down(pairs[0][:2] + asked[2:4] + pairs[0][4:]) == []

# the modem reauthorizes while it waits for that pair; the Reply comes with a digest, which it does not need, and is taken
renewed = call("reauth")[0]
assert down(with_digest(up(renewed, ak=1)[0]), ak=1, own=1) == [""]
down(up(asked)[0], own=1)
open_up(LOBBY, seal_up(LOBBY), ak=1)

# a request of another make of modem, numbered 0: the head-end answers it; the hotel's modem, whose requests are never numbered so, does not wait for the answer
nought = up(renumbered(asked, 0))[0]
assert nought[:4] == "0800"
assert down(nought, own=1) == []

# the rooms' frames in their octets (document 02, M-103): a frame each way comes back as it was; one of 11 octets is refused, and one for the lobby, whose suite is 256
plain = "d0a1b2c3d4020000a1b2c3d5" + "".join("%02x" % n for n in range(29))
number, sealed = call("sealdownframe,%d,%d,%s" % (HOTEL, ROOMS, plain))
assert call("opendownframe,1,%d,%d,%s,%s,%s" % (HOTEL, ROOMS, number, up_key(1), sealed)) == [plain]
number, sealed = call("sealupframe,%d,%s" % (ROOMS, plain))
assert call("openupframe,0,%d,%d,%s,%s,%s" % (HOTEL, ROOMS, number, down_key(1), sealed)) == [plain]
assert call("sealupframe,%d,%s" % (ROOMS, plain[:22])) == []
assert call("sealupframe,%d,%s" % (LOBBY, plain)) == []
print("\n".join(calls))
