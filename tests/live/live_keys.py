"""Live runs with shared keys: from one program to another, and with a client and a server that share no code with it."""
import os
import re
import socket
import time

from forward_peers import Client, Server, Stream, drip, entries_of, helo_of, is_closed, packed, ping_of, pong_of, read_ping
from live_log import lines_of, told
from live_room import HOST, Failed, Program, content, free_port, holds, until

SENDER = """[SERVICE]
    Flush 0.2
    Grace 20
    scheduler.base 1
    scheduler.cap 1
[INPUT]
    Name tcp
    Listen 127.0.0.1
    Port {port}
    Tag app.web
[INPUT]
    Name stdin
[OUTPUT]
    Name forward
    Match *
    Host 127.0.0.1
    Port {other}
    Shared_Key {key}
    Self_Hostname {host}
    Require_ack_response On
    Retry_Limit no_limits
"""

RECEIVER = """[SERVICE]
    Flush 0.2
    Grace 10
    storage.path chunks
    storage.sync full
[INPUT]
    Name forward
    Listen 127.0.0.1
    Port {other}
    Shared_Key {key}
    Self_Hostname {host}
    storage.type filesystem
[INPUT]
    Name stdin
[OUTPUT]
    Name file
    Match *
    Path .
    File out
    Format json_lines
"""

# A forward input without a key, beside the other one.
OPEN_INPUT = """[INPUT]
    Name forward
    Listen 127.0.0.1
    Port {port}
"""

KEY, HOSTNAME = "one key", "receiver.example"

# The HELO of the nonce 1, 2, and a schedule with the PING that answers it for the key `k`.
HELO = "92a448454c4f83a56e6f6e6365c41000000000000000010000000000000002a461757468c400a96b656570616c697665c3"
SCHEDULE = f"{os.path.dirname(os.path.dirname(os.path.realpath(__file__)))}/golden/input_forward/keyed_handshake/schedule"

# What the log says of peers that don't show the key.
NO_KEY = b"shared key"

LINES = 20_000


def sender_of(port, other, key=KEY, host="sender.example"):
    return SENDER.format(port=port, other=other, key=key, host=host)


def receiver_of(other, key=KEY, host=HOSTNAME):
    return RECEIVER.format(other=other, key=key, host=host)


def numbered(numbers):
    return b"".join(b'{"n":%d}\n' % number for number in numbers)


def numbers_of(program):
    """The numbers of the lines that came out, each of which is looked at whole."""
    found = [re.fullmatch(rb'\{"date":[0-9.]+,"n":([0-9]+)\}', line) for line in program.lines("out")]
    holds(all(found), f"a line came that nobody sent: {program.lines('out')[:3]}")
    return [int(it[1]) for it in found]


def ends_well(program):
    """Stops a program, and returns its report."""
    status = program.stop()
    holds(status == 0, f"status {status}: {program.stderr().decode(errors='replace')}")
    return program.stdout().decode()


def retries_in(report):
    """Returns how often the sender of a report retried; it has delivered everything, and given up nothing."""
    found = re.search(r"output forward\.0: ok [1-9][0-9]* retry ([0-9]+) error 0 spent 0 lost 0 taken [0-9]+\n", report)
    holds(found and report.endswith("owed 0\n"), f"the report is another: {report}")
    return int(found[1])


# ---- the two peers of the test


def came_of(server_key, client_key):
    """Returns what the test's server has of a message of the test's client, and what the server complains of."""
    port = free_port()
    with Server(port, server_key) as server, socket.create_connection((HOST, port), timeout=10) as link:
        client = Client(link, client_key)
        try:
            holds(client.greet() == server.host, "the server has another name")
            client.send(["t", entries_of([{"n": 1}])], "c", size=1)
        except Failed:
            pass
        until(lambda: server.records or server.trouble, "the server has taken or refused something", 10)
        return server.records, server.trouble


def the_peers_of_the_test(room):
    """The client and the server of the test understand each other with one key alone, and spell messages as the protocol does."""
    holds(came_of(KEY, KEY) == ([("t", {"n": 1})], []), "the peers have one key, and don't understand each other")
    records, trouble = came_of(KEY, "another")
    holds(not records and "doesn't show the key" in trouble[0], f"the peers have two keys, and say {records} {trouble}")
    nonce = (1).to_bytes(8, "big") + (2).to_bytes(8, "big")
    holds(helo_of(nonce) == bytes.fromhex(HELO), "the test spells a HELO otherwise")
    with open(SCHEDULE) as file:
        ping = re.search(r"x:(96a450494e47[0-9a-f]+)", file.read())[1]
    holds(ping_of("h", bytes(16), nonce, "k") == bytes.fromhex(ping), "the test spells a PING otherwise")


# ---- from one program to another


def one_program_greets_another(room):
    """Lines go from one program to another that has the same key, and is absent at first."""
    port, other = free_port(), free_port()
    with Program(room, "keyed_sender", sender_of(port, other)) as sender:
        sender.send(port, numbered(range(LINES)))
        time.sleep(1.5)
        with Program(room, "keyed_receiver", receiver_of(other)) as receiver:
            until(lambda: len(receiver.lines("out")) >= LINES, "all lines are handed on", 60)
            retries = retries_in(ends_well(sender))
            report = ends_well(receiver)
            numbers = numbers_of(receiver)
    holds(retries > 0, "the receiver was absent, and nothing was retried")
    holds(sorted(numbers) == list(range(LINES)), "lines are lost or come twice")
    holds(re.search(rf"input forward\.0: batches [0-9]+ events {LINES} refused 0\n", report), f"the report is another: {report}")


def a_greeted_receiver_is_killed(room):
    """The receiver is killed while lines come, and starts again: each line comes, some twice. The kill may cut one."""
    port, other = free_port(), free_port()
    came = lambda: {int(number) for number in re.findall(rb'"n":([0-9]+)\}\n', content(receiver.path("out")))}
    with Program(room, "lasting_sender", sender_of(port, other)) as sender, sender.connect(port) as peer:
        with Program(room, "killed_receiver", receiver_of(other)) as receiver:
            for first in range(0, LINES, 500):
                peer.sendall(numbered(range(first, first + 500)))
                time.sleep(0.05)
                if first == LINES // 2:
                    until(lambda: receiver.lines("out"), "some lines are handed on", 30)
                    receiver.process.kill()
        with Program(room, "killed_receiver", receiver_of(other)) as receiver:
            until(lambda: len(came()) >= LINES, "all lines are handed on", 60)
            peer.close()
            retries_in(ends_well(sender))
            ends_well(receiver)
    holds(came() == set(range(LINES)), "lines are lost")


def look_at_no_delivery(receiver, other, sender, port):
    """Sends lines to a receiver that is not to get them, until the sender has said that it can't deliver."""
    receiver.connect(other).close()
    sender.send(port, numbered(range(100)))
    until(lambda: b"can't be delivered" in sender.stderr(), "the sender says that it can't deliver", 20)
    time.sleep(2.5)
    report = ends_well(receiver)
    holds(receiver.lines("out") == [], f"lines were delivered: {receiver.lines('out')[:3]}")
    holds("input forward.0: batches 0 events 0 refused 0\n" in report, f"the report is another: {report}")


def lines_wait_for_a_right_receiver(room, name, **wrong):
    """Nothing goes to a wrong receiver and nothing is lost: all goes to a right one. Returns why the sender couldn't deliver."""
    port, other = free_port(), free_port()
    with Program(room, f"{name}_sender", sender_of(port, other)) as sender:
        with Program(room, f"{name}_receiver", receiver_of(other, **wrong)) as receiver:
            look_at_no_delivery(receiver, other, sender, port)
        with Program(room, f"{name}_receiver", receiver_of(other)) as receiver:
            until(lambda: len(receiver.lines("out")) >= 100, "the lines come to the right receiver", 30)
            holds(retries_in(ends_well(sender)) > 0, "nothing was retried")
            ends_well(receiver)
            holds(sorted(numbers_of(receiver)) == list(range(100)), "lines are lost or come twice")
        return told(lines_of(sender.stderr()), "warn", "output forward.0", "can't be delivered")


def two_keys(room):
    """Nothing goes to a receiver that has another key, and nothing is lost. The sender's log says why."""
    reasons = lines_wait_for_a_right_receiver(room, "two_keys", key="another key")
    holds("the peer closed the connection" in reasons[0], f"the sender's log has {reasons}")


def one_name(room):
    """A sender refuses a receiver of its own name, as which its own digest could come back."""
    lines_wait_for_a_right_receiver(room, "one_name", host="sender.example")


def strangers_are_logged(room):
    """The log of a receiver says that peers didn't show the key, in few lines however many they are."""
    port = free_port()
    with Program(room, "strangers", receiver_of(port)) as program:
        for number in range(100):
            comes_to_nothing(program, port, has_another_key)
        until(lambda: NO_KEY in program.stderr(), "the log says that a peer didn't show the key", 10)
        ends_well(program)
        log = lines_of(program.stderr())
    lines = told(log, "warn", "input forward.0", NO_KEY.decode())
    holds(1 <= len(lines) <= 5, f"a hundred strangers made {len(lines)} lines: {log}")


# ---- a client of the protocol


def says_no_ping(client):
    """A message comes in place of a PING."""
    return packed(["t", entries_of([{"n": 99}])])


def has_another_key(client):
    return ping_of(client.host, client.salt, client.nonce, "another key") + says_no_ping(client)


def has_another_nonce(client):
    return ping_of(client.host, client.salt, bytes(16), client.key) + says_no_ping(client)


def has_five_members(client):
    return b"\x95" + client.ping()[1:-1] + says_no_ping(client)


def has_seven_members(client):
    return b"\x97" + client.ping()[1:] + b"\xa0" + says_no_ping(client)


def shouts(client):
    """The hex of its digest is in capital letters."""
    ping = client.ping()
    return ping[:-130] + ping[-130:-2].upper() + ping[-2:] + says_no_ping(client)


def pongs(client):
    """It sends what a server sends."""
    return pong_of(client.host, client.salt, client.nonce, client.key) + says_no_ping(client)


STRANGERS = (says_no_ping, has_another_key, has_another_nonce, has_five_members, has_seven_members, shouts, pongs)


def comes_to_nothing(program, port, stranger):
    """A client that doesn't show the key is dropped without an answer. Returns the nonce that it got."""
    with program.connect(port) as link:
        client = Client(link, KEY)
        client.read_helo()
        link.sendall(stranger(client))
        holds(is_closed(link), f"{stranger.__name__}: the connection goes on")
    return client.nonce


def says_a_ping_again(program, port):
    """The PING of one connection shows nothing on another one."""
    with program.connect(port) as one, program.connect(port) as other:
        first, second = Client(one, KEY), Client(other, KEY)
        first.greet()
        second.read_helo()
        other.sendall(first.ping() + says_no_ping(first))
        holds(is_closed(other), "a PING that was sent before is answered")
        first.send(["t", 10, {"n": 0}], "0")


def delivers_in_each_mode(program, port):
    """A client that has the key delivers messages in each of the protocol's modes."""
    with program.connect(port) as link:
        client = Client(link, KEY)
        holds(client.greet() == HOSTNAME, "the program has another name")
        client.send(["t", 10, {"n": 1}], "1")
        client.send(["t", [[10, {"n": 2}], [11, {"n": 3}]]], "2")
        client.send(["t", entries_of([{"n": 4}, {"n": 5}])], "3", size=2)


def is_in_a_hurry(program, port):
    """A client sends its PING and its first messages in one piece, and doesn't wait for the PONG."""
    with program.connect(port) as link:
        client = Client(link, KEY)
        client.read_helo()
        link.sendall(client.ping() + packed(["t", 10, {"n": 6}]) + packed(["t", 10, {"n": 7}, {"chunk": "4"}]))
        client.read_pong()
        client.read_ack("4")


def takes_its_time(program, port):
    """A client sends its PING and a message a byte at a time, spells its salt as a text and its digest as a bin."""
    with program.connect(port) as link:
        link.setsockopt(socket.IPPROTO_TCP, socket.TCP_NODELAY, 1)
        client = Client(link, KEY)
        client.salt = b"a salt of 16 byt"
        client.read_helo()
        ping = client.ping()
        text = packed(client.salt.decode())
        digest = packed(ping[-130:-2])
        drip(link, ping[:-150] + text + digest + ping[-2:])
        client.read_pong()
        drip(link, packed(["t", 10, {"n": 8}, {"chunk": "5"}]))
        client.read_ack("5")


def a_client_of_the_protocol(room):
    """A client that has the key delivers, and one that hasn't is dropped. An input without a key beside it greets nobody."""
    port, bare = free_port(), free_port()
    with Program(room, "client", receiver_of(port) + OPEN_INPUT.format(port=bare)) as program:
        nonces = [comes_to_nothing(program, port, stranger) for stranger in STRANGERS]
        for client in (says_a_ping_again, delivers_in_each_mode, is_in_a_hurry, takes_its_time):
            client(program, port)
        with program.connect(bare) as link:
            Client(link, "").send(["t", 10, {"n": 9}], "6")
        until(lambda: len(program.lines("out")) >= 10, "the messages come out", 20)
        report = ends_well(program)
        holds(sorted(numbers_of(program)) == list(range(10)), f"other lines come out: {program.lines('out')}")
    holds(all(len(nonce) == 16 for nonce in nonces) and len(set(nonces)) == len(nonces), f"the nonces are {nonces}")
    holds(re.search(r"input forward\.0: batches 7 events 9 refused 0\n", report), f"the report is another: {report}")


# ---- a server of the protocol


def sends(server, link, pong):
    """Sends a PONG, which is made of the host, the salt and the nonce of the client; it is to end the connection."""
    stream, nonce = Stream(link), os.urandom(16)
    link.sendall(helo_of(nonce))
    host, salt = read_ping(stream, nonce, KEY)
    server.pings.append((host, salt))
    link.sendall(pong(host, salt, nonce))
    holds(is_closed(link), "the connection goes on")


def pong_of_another_key(server, link):
    sends(server, link, lambda host, salt, nonce: pong_of(server.host, salt, nonce, "another key"))


def pong_of_another_salt(server, link):
    sends(server, link, lambda host, salt, nonce: pong_of(server.host, bytes(16), nonce, server.key))


def pong_that_does_not_accept(server, link):
    sends(server, link, lambda host, salt, nonce: pong_of(server.host, salt, nonce, server.key, accepts=False))


def pong_of_the_own_name(server, link):
    sends(server, link, lambda host, salt, nonce: pong_of(host, salt, nonce, server.key))


def helo_without_a_nonce(server, link):
    """It isn't answered with a PING."""
    link.sendall(packed(["HELO", {"auth": b"", "keepalive": True}]))
    holds(is_closed(link), "the connection goes on")


def helo_in_pieces(server, link):
    """HELO and PONG come a byte at a time, and HELO has further options."""
    link.setsockopt(socket.IPPROTO_TCP, socket.TCP_NODELAY, 1)
    stream, nonce = Stream(link), os.urandom(32)
    drip(link, packed(["HELO", {"max": 7, "keepalive": False, "nonce": nonce, "auth": "salt"}]))
    ping = read_ping(stream, nonce, KEY)
    server.pings.append(ping)
    drip(link, pong_of(server.host, ping[1], nonce, KEY))
    server.take_all(link, stream)


TREATS = (pong_of_another_key, pong_of_another_salt, pong_that_does_not_accept, pong_of_the_own_name, helo_without_a_nonce, helo_in_pieces)


def a_server_of_the_protocol(room):
    """A server that has the key gets all lines; one that doesn't show it gets a PING and no more, and the lines are sent again."""
    port, other = free_port(), free_port()
    with Server(other, KEY, treats=TREATS) as server, Program(room, "server", sender_of(port, other)) as program:
        program.send(port, numbered(range(1_000)))
        until(lambda: len(server.records) >= 1_000, "the server has the lines", 60)
        program.send(port, numbered(range(1_000, 2_000)))
        until(lambda: len(server.records) >= 2_000, "the server has the other lines", 30)
        retries = retries_in(ends_well(program))
    holds(not server.trouble, f"the server has trouble: {server.trouble}")
    holds(sorted(record["n"] for _, record in server.records) == list(range(2_000)), "lines are lost or come twice")
    holds({tag for tag, _ in server.records} == {"app.web"}, "a message has another tag")
    holds(retries >= len(TREATS) - 1, f"the lines were retried {retries} times")
    hosts, salts = zip(*server.pings)
    holds(set(hosts) == {"sender.example"} and len(set(salts)) == len(salts), f"the PINGs have {server.pings}")


CASES = (
    the_peers_of_the_test,
    one_program_greets_another,
    a_greeted_receiver_is_killed,
    two_keys,
    one_name,
    strangers_are_logged,
    a_client_of_the_protocol,
    a_server_of_the_protocol,
)
