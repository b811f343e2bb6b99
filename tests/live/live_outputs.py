"""Live runs that hand on: from one program to another with acknowledgements, and to a server over HTTP."""
import os
import re
import socket
import threading
import time

from live_room import HOST, PATIENCE, Program, free_port, holds, until

SENDER = """[SERVICE]
    Flush 0.2
    Grace 10
    scheduler.base 1
    scheduler.cap 1
[INPUT]
    Name tcp
    Listen 127.0.0.1
    Port {port}
    Tag app.web
[INPUT]
    Name stdin
[OUTPUT]
    Name forward
    Match *
    Host 127.0.0.1
    Port {other}
    Require_ack_response On
    Retry_Limit no_limits
"""

RECEIVER = """[SERVICE]
    Flush 0.2
    Grace 10
[INPUT]
    Name forward
    Listen 127.0.0.1
    Port {other}
[INPUT]
    Name stdin
[OUTPUT]
    Name file
    Match app.*
    Path .
    File out
    Format json_lines
"""

LINES = 20_000


def one_program_hands_to_another(room):
    """Lines go from one program to another, which is absent at first and acknowledges what it has taken."""
    port, other = free_port(), free_port()
    with Program(room, "sender", SENDER.format(port=port, other=other)) as sender:
        sender.send(port, b"".join(b'{"n":%d}\n' % number for number in range(LINES)))
        time.sleep(1.5)
        with Program(room, "receiver", RECEIVER.format(other=other)) as receiver:
            until(lambda: len(receiver.lines("out")) >= LINES, "all lines are handed on", 60)
            holds(sender.stop() == 0, "the sender ends well")
            holds(receiver.stop() == 0, "the receiver ends well")
            numbers = [int(re.fullmatch(rb'\{"date":[0-9.]+,"n":([0-9]+)\}', line)[1]) for line in receiver.lines("out")]
    # Chunks that are retried may be delivered in another order.
    holds(sorted(numbers) == list(range(LINES)), "lines are lost or come twice")
    report = sender.stdout().decode()
    holds(re.search(r"output forward\.0: ok [1-9][0-9]* retry [1-9][0-9]* error 0 spent 0 lost 0 taken [0-9]+\n", report), f"the report is another: {report}")
    holds(report.endswith("owed 0\n"), f"something is owed: {report}")


TO_SERVER = """[SERVICE]
    Flush 0.2
    Grace 10
    scheduler.base 1
    scheduler.cap 1
[INPUT]
    Name tcp
    Listen 127.0.0.1
    Port {port}
    Tag app
[INPUT]
    Name stdin
[OUTPUT]
    Name http
    Match *
    Host 127.0.0.1
    Port {server}
    URI /in
    Format json_lines
    Retry_Limit no_limits
"""


class Server:
    """A server that answers one request after another with what it is given; none is no answer."""

    def __init__(self, port, answers):
        self.answers = list(answers)
        self.bodies = []
        self.listener = socket.create_server((HOST, port), backlog=16)
        threading.Thread(target=self.work, daemon=True).start()

    def work(self):
        while self.answers:
            link, _ = self.listener.accept()
            with link:
                link.settimeout(PATIENCE)
                head, body = b"", b""
                while b"\r\n\r\n" not in head:
                    head += link.recv(65_536)
                head, body = head.split(b"\r\n\r\n", 1)
                length = int(re.search(rb"Content-Length: ([0-9]+)", head)[1])
                while len(body) < length:
                    body += link.recv(65_536)
                self.bodies.append((head.split(b"\r\n")[0], body))
                answer = self.answers.pop(0)
                if answer:
                    link.sendall(f"HTTP/1.1 {answer}\r\nContent-Length: 0\r\n\r\n".encode())
        self.listener.close()


def a_server_is_busy_and_refuses(room):
    """A line is posted until the server takes it; one that the server refuses for good isn't posted again."""
    port, at = free_port(), free_port()
    server = Server(at, ["503 Busy", None, "204 No Content", "404 Not Found"])
    with Program(room, "http", TO_SERVER.format(port=port, server=at)) as program:
        program.send(port, b'{"n":1}\n')
        until(lambda: len(server.bodies) == 3, "the line is posted three times", 60)
        program.send(port, b'{"n":2}\n')
        until(lambda: len(server.bodies) == 4, "the other line is posted", 60)
        holds(program.stop() == 0, "the program ends well")
    first, second = [body for _, body in server.bodies[:3]], server.bodies[3][1]
    holds(all(line == b"POST /in HTTP/1.1" for line, _ in server.bodies), "a request has another first line")
    holds(first[0] == first[1] == first[2] and b'"n":1' in first[0] and b'"n":2' in second, f"the bodies are others: {server.bodies}")
    report = program.stdout().decode()
    holds(re.search(r"output http\.0: ok 1 retry 2 error 1 spent 0 lost 0 taken [0-9]+\n", report), f"the report is another: {report}")
    holds(report.endswith("owed 0\n"), f"something is owed: {report}")


TO_PIPE = """[SERVICE]
    Flush 0.2
    Grace 30
[INPUT]
    Name tcp
    Listen 127.0.0.1
    Port {port}
[INPUT]
    Name stdin
[OUTPUT]
    Name stdout
[OUTPUT]
    Name stdout
"""


class Reader:
    """Reads a pipe of a program slowly, to its end."""

    def __init__(self, path):
        self.path = path
        self.taken = b""
        self.thread = threading.Thread(target=self.work, daemon=True)
        self.thread.start()

    def work(self):
        until(lambda: os.path.exists(self.path), "the pipe is there", 10)
        with open(self.path, "rb", buffering=0) as pipe:
            while part := pipe.read(5_000):
                self.taken += part
                time.sleep(0.001)

    def all(self):
        self.thread.join(PATIENCE)
        holds(not self.thread.is_alive(), "the pipe has no end")
        return self.taken.decode()


def two_outputs_share_a_slow_pipe(room):
    """Standard output is a pipe that is read slowly. Both of its outputs write each line there, whole."""
    port = free_port()
    with Program(room, "pipe", TO_PIPE.format(port=port), before="mkfifo pipe; exec >pipe") as program:
        reader = Reader(program.path("pipe"))
        program.send(port, b"".join(b'{"n":%d}\n' % number for number in range(LINES)))
        until(lambda: reader.taken.count(b"\n") >= 2 * LINES, "all lines are read", 60)
        status = program.stop()
        out = reader.all()
    holds(status == 0, f"status {status}: {program.stderr().decode(errors='replace')}")
    report = out.index("input tcp.0: ")
    lines = out[:report].splitlines()
    found = [re.fullmatch(r'\{"date":[0-9.]+,"n":([0-9]+)\}', line) for line in lines]
    holds(all(found), f"a line isn't whole: {[line for line, it in zip(lines, found) if not it][:1]}")
    numbers = sorted(int(it[1]) for it in found)
    holds(numbers == sorted([*range(LINES), *range(LINES)]), f"{len(numbers)} lines came, of {2 * LINES}")
    holds(out.endswith("owed 0\n") and re.search(rf"output stdout\.1: ok [0-9]+ retry 0 error 0 spent 0 lost 0 taken {report // 2}\n", out), f"the report is another: {out[report:]}")


CASES = (one_program_hands_to_another, a_server_is_busy_and_refuses, two_outputs_share_a_slow_pipe)
