"""Live runs and their log, their pages, and their refusals."""
import http.server
import json
import os
import re
import shutil
import signal
import socket
import struct
import subprocess
import tempfile
import threading
import time
import urllib.error
import urllib.request

from live_room import HOST, Collector, Program, content, free_port, holds, until

BLOCKED = "TERM,INT"

TO_COLLECTOR = """[SERVICE]
    Flush 0.2
    Grace 20
    scheduler.base 1
    scheduler.cap 2
    {more}
[INPUT]
    Name tcp
    Listen 127.0.0.1
    Port {port}
[OUTPUT]
    Name {plugin}
    Match *
    Host 127.0.0.1
    Port {collector}
    Format json_lines
    Retry_Limit {limit}
"""

# The form of a line: the time in UTC, the level, the source and the text.
LINE = re.compile(r"\[\d{4}/\d\d/\d\d \d\d:\d\d:\d\d\] \[(error| warn| info|debug)\] \[([a-z]+(?: [a-z0-9.]+)?)\] (.+)")


def configuration(port, collector, more="", plugin="tcp", limit="no_limits"):
    return TO_COLLECTOR.format(port=port, collector=collector, more=more, plugin=plugin, limit=limit)


def lines_of(text):
    """The lines of a log, each as its level, source and text."""
    found = [LINE.fullmatch(line) for line in text.decode().splitlines()]
    holds(all(found), f"not all lines have the form of a log's: {text!r}")
    return [(line[1].strip(), line[2], line[3]) for line in found]


def told(log, level, source, part):
    return [text for at, of, text in log if at == level and of == source and part in text]


def logged(room):
    """A collector that is down and then up: one warning with its next try, few lines, and the recovery, all in Log_File."""
    port, collector = free_port(), Collector(free_port())
    with Program(room, "logged", configuration(port, collector.port, "Log_File log"), blocks=BLOCKED) as program:
        program.send(port, b'{"a":1}\n{"a":2}\n')
        until(lambda: b"can't be delivered" in content(program.path("log")), "a failed delivery is logged", 10)
        time.sleep(6)
        collector.open()
        until(lambda: collector.taken() > 0, "the lines come", 20)
        until(lambda: b"delivers again" in content(program.path("log")), "the recovery is logged", 10)
        program.process.send_signal(signal.SIGTERM)
        status = program.end()
        log, complaints = lines_of(content(program.path("log"))), program.stderr()
    collector.close()
    holds(status == 0, f"status {status}: {complaints!r}")
    holds(complaints == b"", f"standard error has {complaints!r}")
    holds(told(log, "info", "input tcp.0", f"listens at 127.0.0.1 port {port}"), f"listening isn't logged: {log}")
    retries = told(log, "warn", "output tcp.0", "can't be delivered")
    holds(1 <= len(retries) <= 5, f"six seconds without a collector made {len(retries)} lines: {log}")
    holds("Connection refused" in retries[0] and "next try in" in retries[0], f"the reason or the next try isn't told: {retries[0]}")
    holds(len(told(log, "info", "output tcp.0", "delivers again")) == 1, f"the recovery isn't logged once: {log}")
    holds(told(log, "info", "engine", "stops"), f"the stop isn't logged: {log}")
    holds(len(log) < 20, f"the log has {len(log)} lines")


def quiet(room):
    """A run without trouble writes no warning, one that is told warn writes nothing, and off writes nothing at all."""
    for level, most in (("info", None), ("warn", 0), ("off", 0)):
        port, collector = free_port(), Collector(free_port())
        collector.open()
        with Program(room, f"quiet_{level}", configuration(port, collector.port, f"Log_Level {level}"), blocks=BLOCKED) as program:
            program.send(port, b'{"a":1}\n' * 1_000)
            until(lambda: collector.taken() >= 1_000, "the lines come", 20)
            program.process.send_signal(signal.SIGTERM)
            status = program.end()
            log = lines_of(program.stderr())
        collector.close()
        holds(status == 0, f"status {status}: {log}")
        holds(all(at == "info" for at, _, _ in log), f"a run without trouble has {log}")
        holds(most is None or len(log) <= most, f"at {level} the log has {log}")
        holds(most is not None or len(log) >= 3, f"at {level} the log has {log}")


def given_up(room):
    """A reply of 503 and then of 400: the log has the statuses and the first bytes of the replies, control bytes as spaces."""

    class Refusing(http.server.BaseHTTPRequestHandler):
        statuses = [503, 400]

        def do_POST(self):
            self.rfile.read(int(self.headers["Content-Length"]))
            status = Refusing.statuses.pop(0) if Refusing.statuses else 400
            body = b"not today\x1b[31m\n" + b"x" * 1_000
            self.send_response(status)
            self.send_header("Content-Length", str(len(body)))
            self.end_headers()
            self.wfile.write(body)

        def log_message(self, *_):
            pass

    server = http.server.HTTPServer((HOST, 0), Refusing)
    threading.Thread(target=server.serve_forever, daemon=True).start()
    port = free_port()
    with Program(room, "given_up", configuration(port, server.server_port, plugin="http", limit="5"), blocks=BLOCKED) as program:
        program.send(port, b'{"a":1}\n')
        until(lambda: b"as the peer refused it" in program.stderr(), "the chunk is given up", 20)
        program.process.send_signal(signal.SIGTERM)
        program.end()
        log = lines_of(program.stderr())
    server.shutdown()
    holds("503" in told(log, "warn", "output http.0", "can't be delivered")[0], f"the status of the retry isn't told: {log}")
    refused = told(log, "error", "output http.0", "given up")
    holds(len(refused) == 1 and "400" in refused[0] and len(refused[0]) < 400, f"the refusal isn't told: {log}")
    holds(b"\x1b" not in program.stderr(), "a control byte of a reply is in the log")


def refused_beside_a_reset(room):
    """One request is refused while the connection of another is reset: the log has the status for the chunk that is given up."""
    port, other = free_port(), free_port()
    with socket.create_server((HOST, 0)) as server:
        server.settimeout(20)
        text = configuration(port, server.getsockname()[1], plugin="http").replace("Grace 20", "Grace 1")
        text += f"[INPUT]\n    Name tcp\n    Listen 127.0.0.1\n    Port {other}\n"
        with Program(room, "refused_beside_a_reset", text, blocks=BLOCKED) as program:
            program.send(port, b'{"a":1}\n')
            program.send(other, b'{"b":1}\n')
            links = [server.accept()[0] for _ in range(2)]
            for link in links:
                link.recv(4_096)
            links[0].sendall(b"HTTP/1.1 404 Not Found\r\nContent-Length: 0\r\n\r\n")
            links[1].setsockopt(socket.SOL_SOCKET, socket.SO_LINGER, struct.pack("ii", 1, 0))
            links[1].close()
            until(lambda: b"as the peer refused it" in program.stderr(), "the chunk is given up", 10)
            program.process.send_signal(signal.SIGTERM)
            program.end()
            log = lines_of(program.stderr())
        links[0].close()
    refused = told(log, "error", "output http.0", "1 chunk is given up, as the peer refused it: HTTP/1.1 404")
    holds(len(refused) == 1 and "404" in refused[0], f"the refusal isn't told: {log}")


REFUSALS = [
    ("[INPUT]\n    Name tail\n    Path x\n    DB.sync y\n", 4, "UnknownKey", "tail has no key DB.sync; it has "),
    ("[INPUT]\n    Name tcp\n[OUTPUT]\n    Name tcp\n    Format json\n", 5, "BadChoice", "Format json: one of json_lines, msgpack"),
    ("[INPUT]\n    Name tcp\n    Port five\n", 3, "BadNumber", "Port five: "),
    ("[INPUT]\n    Name syslog\n", 2, "UnknownPlugin", "Name syslog: one of tail, tcp, forward, stdin"),
    ("[INPUTS]\n    Name tcp\n", 1, "UnknownSection", "INPUTS: one of SERVICE, INPUT"),
    ("[INPUT]\n    Name tail\n", 1, "Missing", "tail has no Path"),
    ("[OUTPUT]\n    Name http\n    Retry_Status 404 9xx\n", 3, "BadChoice", "Retry_Status 404 9xx: statuses"),
    ("[OUTPUT]\n    Name http\n    Header X-Team\n", 3, "BadChoice", "Header X-Team: a name and a value"),
    ("[OUTPUT]\n    Name stdout\n    storage.id a b\n", 3, "BadChoice", "storage.id a b: a name without blanks"),
    ("[INPUT]\n    Name\n", 2, "NoValue", "a value is missing"),
    ("[INPUT]\n    Name tcp\n    Shared_Key k\n", 3, "UnknownKey", "tcp has no key Shared_Key; it has "),
    (f"[INPUT]\n    Name forward\n    Self_Hostname {'h' * 256}\n", 3, "BadChoice", f"Self_Hostname {'h' * 256}: a text of at most 255 bytes"),
]


def refused(room):
    """A refused configuration is told in one line before the status line, with its place, its key and the choices."""
    for number, (text, line, kind, why) in enumerate(REFUSALS):
        with Program(room, f"refused_{number}", text) as program:
            status = program.end()
            said = program.stderr().decode().splitlines()
        holds(status == 2 and len(said) == 2, f"status {status}: {said}")
        holds(said[1] == f"config refused: {kind} at main.conf:{line}", f"the status line is another: {said}")
        found = LINE.fullmatch(said[0])
        holds(found and found[1] == "error" and found[2] == "config", f"the line before isn't the log's: {said}")
        holds(found[3].startswith(f"main.conf:{line}: {why}"), f"the reason is another: {said}")


def log_file_that_cannot_be_opened(room):
    """The log says so, and stays on standard error."""
    port, collector = free_port(), Collector(free_port())
    collector.open()
    with Program(room, "no_log_file", configuration(port, collector.port, "Log_File nowhere/log"), blocks=BLOCKED) as program:
        program.send(port, b'{"a":1}\n')
        until(lambda: collector.taken() > 0, "the line comes", 20)
        program.process.send_signal(signal.SIGTERM)
        program.end()
        log = lines_of(program.stderr())
    collector.close()
    holds(told(log, "warn", "config", "Log_File nowhere/log can't be opened"), f"the file isn't complained of: {log}")
    holds(told(log, "info", "input tcp.0", "listens at"), f"the log doesn't go on: {log}")


def unread_values(room):
    """A value of the log settings that isn't of its kind counts as not given, and the log warns of it."""
    port, collector = free_port(), Collector(free_port())
    with Program(room, "unread_values", configuration(port, collector.port, "Log_Level loud\n    forward.mem_limit 64X"), words=("-n", "2")) as program:
        program.end()
        log = lines_of(program.stderr())
    holds(told(log, "warn", "config", "main.conf:6: Log_Level loud counts as not given: one of off, error"), f"the level isn't told: {log}")
    holds(told(log, "warn", "config", "main.conf:7: forward.mem_limit 64X counts as not given: a size"), f"the limit isn't told: {log}")
    holds(told(log, "info", "engine", "begins"), f"the level isn't info: {log}")


def page(port, path, patience=10):
    """The status and the text of a page."""
    try:
        with urllib.request.urlopen(f"http://{HOST}:{port}{path}", timeout=patience) as reply:
            return reply.status, reply.read().decode()
    except urllib.error.HTTPError as error:
        return error.code, error.read().decode()


def counters(port):
    """The samples of the page for Prometheus."""
    status, text = page(port, "/api/v1/metrics/prometheus")
    holds(status == 200, f"the page for Prometheus has status {status}")
    found = {}
    for line in text.splitlines():
        if not line.startswith("#"):
            name, number = line.rsplit(" ", 1)
            found[name] = int(number)
    return found


def with_pages(pages, more=""):
    return f"HTTP_Server On\n    HTTP_Listen 127.0.0.1\n    HTTP_Port {pages}\n    {more}"


def asked(room):
    """Numbers rise while lines come, and the last ones agree with the report."""
    port, pages, collector = free_port(), free_port(), Collector(free_port())
    collector.open()
    with Program(room, "asked", configuration(port, collector.port, with_pages(pages, "Health_Check On")), blocks=BLOCKED) as program:
        before = 0
        for turn in range(1, 6):
            program.send(port, b'{"a":1}\n' * 200)
            records = until(lambda: (now := counters(pages)['fluentbit_input_records_total{name="tcp.0"}']) == 200 * turn and now, "the records rise", 10)
            holds(records > before, f"{records} records after {before}")
            before = records
        until(lambda: counters(pages)['fuztreb_chunks_owed{name="tcp.0"}'] == 0, "all chunks are delivered", 10)
        last = counters(pages)
        metrics = json.loads(page(pages, "/api/v1/metrics")[1])
        storage = json.loads(page(pages, "/api/v1/storage")[1])
        holds(metrics["input"]["tcp.0"]["records"] == 1_000, f"the metrics are {metrics}")
        holds(storage["storage_layer"]["chunks"]["total_chunks"] == 0, f"the storage is {storage}")
        holds(storage["input_chunks"]["tcp.0"]["paused"] is False, f"the storage is {storage}")
        holds(page(pages, "/api/v1/health") == (200, "ok\n"), "the run isn't healthy")
        holds("uptime_sec" in json.loads(page(pages, "/api/v1/uptime")[1]), "there is no uptime")
        holds(json.loads(page(pages, "/")[1])["fuztreb"], "there is no root page")
        holds(page(pages, "/api/v1/no")[0] == 404, "an unknown page has another status than 404")
        scraped(pages, last)
        program.process.send_signal(signal.SIGTERM)
        status = program.end()
        report = program.stdout().decode()
    collector.close()
    holds(status == 0, f"status {status}")
    batches, events, taken = (int(re.search(part, report)[1]) for part in (r"tcp\.0: batches (\d+)", r"events (\d+) refused 0", r"taken (\d+)"))
    holds(events == last['fluentbit_input_records_total{name="tcp.0"}'], f"the report and the page differ: {report} {last}")
    holds(batches == last['fuztreb_input_batches_total{name="tcp.0"}'], f"the report and the page differ: {report} {last}")
    holds(taken == last['fluentbit_output_proc_bytes_total{name="tcp.0"}'], f"the report and the page differ: {report} {last}")


def scraped(pages, wanted):
    """Prometheus itself reads the page, where it is there."""
    if not shutil.which("promtool"):
        return
    text = page(pages, "/api/v1/metrics/prometheus")[1]
    checked = subprocess.run(["promtool", "check", "metrics"], input=text, capture_output=True, text=True)
    holds(checked.returncode in (0, 3), f"promtool can't read the page: {checked.stderr}")
    if not shutil.which("prometheus"):
        return
    with tempfile.TemporaryDirectory() as folder:
        web = free_port()
        with open(folder + "/p.yml", "w") as file:
            file.write(f"scrape_configs:\n- job_name: f\n  scrape_interval: 1s\n  metrics_path: /api/v1/metrics/prometheus\n  static_configs:\n  - targets: ['{HOST}:{pages}']\n")
        words = ["prometheus", f"--config.file={folder}/p.yml", f"--storage.tsdb.path={folder}/data", f"--web.listen-address={HOST}:{web}"]
        with subprocess.Popen(words, stdout=subprocess.DEVNULL, stderr=subprocess.DEVNULL) as run:
            try:
                until(lambda: asked_of(web) == wanted['fluentbit_input_records_total{name="tcp.0"}'], "Prometheus has the records", 60)
            finally:
                run.terminate()


def asked_of(web):
    """What Prometheus says of the records."""
    try:
        found = json.loads(page(web, "/api/v1/query?query=fluentbit_input_records_total")[1])["data"]["result"]
    except (OSError, ValueError, KeyError):
        return None
    return int(found[0]["value"][1]) if found else None


def hostile_askers(room):
    """A head without an end, one a byte a second, garbage, other methods and a thousand at once don't hold up lines, and a
    TERM ends the run while askers hang."""
    port, pages, collector = free_port(), free_port(), Collector(free_port())
    collector.open()
    with Program(room, "hostile_askers", configuration(port, collector.port, with_pages(pages)), blocks=BLOCKED) as program:
        program.send(port, b'{"a":1}\n')
        until(lambda: collector.taken() > 0, "the first line comes", 10)
        for head, status in ((b"\x00\xff\n\n" * 10, b"400"), (b"GET / HTTP/1.1\r\nA: " + b"x" * 9_000, b"400"), (b"POST / HTTP/1.1\r\n\r\n", b"405")):
            with socket.create_connection((HOST, pages), timeout=5) as link:
                link.sendall(head)
                reply = link.recv(4_096)
                holds(reply.startswith(b"HTTP/1.1 " + status), f"{head[:20]!r} is answered {reply[:60]!r}")
        with socket.create_connection((HOST, pages), timeout=5) as link:
            for byte in b"GET /api/v1/uptime HTTP/1.1\r\n\r\n":
                link.sendall(bytes([byte]))
                time.sleep(0.01)
            holds(b"uptime_sec" in link.recv(4_096), "a request in pieces isn't answered")
        slow = [socket.create_connection((HOST, pages), timeout=5) for _ in range(8)]
        many = []
        for _ in range(1_000):
            try:
                link = socket.socket()
                link.setblocking(False)
                link.connect_ex((HOST, pages))
                many.append(link)
            except OSError:
                break
        begun = time.monotonic()
        for turn in range(20):
            before = collector.taken()
            program.send(port, b'{"turn":%d}\n' % turn)
            for link in slow:
                try:
                    link.send(b"G")
                except OSError:
                    pass
            until(lambda: collector.taken() > before, "a line comes while askers hang", 3)
        holds(time.monotonic() - begun < 30, "lines were held up")
        begun = time.monotonic()
        program.process.send_signal(signal.SIGTERM)
        status = program.end()
        holds(status == 0 and time.monotonic() - begun < 5, f"status {status} after {time.monotonic() - begun:.1f} s")
        for link in (*slow, *many):
            link.close()
    collector.close()


# After how many seconds an asker is closed, and within how many a line comes.
ASKERS_PATIENCE, LINES_PATIENCE = 10, 2


def trickle(link, ends, stood):
    """Sends a head without an end, a byte a second, and keeps for how long the connection stood."""
    begun = time.monotonic()
    try:
        while not ends.is_set():
            link.sendall(b"G")
            link.settimeout(1)
            try:
                if not link.recv(1):
                    break
            except TimeoutError:
                pass
    except OSError:
        pass
    stood.append(time.monotonic() - begun)


def silent_peers(port, count):
    """Connections that say nothing."""
    links = [socket.socket() for _ in range(count)]
    for link in links:
        link.setblocking(False)
        link.connect_ex((HOST, port))
    return links


def stands(link):
    try:
        return bool(link.getpeername())
    except OSError:
        return False


def slowest_line(program, port, collector, seconds):
    """Sends one line after the other, each when the last one has come. Returns how many came, and how long the slowest took."""
    count, slowest, ends = 0, 0, time.monotonic() + seconds
    with program.connect(port) as link:
        while time.monotonic() < ends:
            before, begun = collector.taken(), time.monotonic()
            link.sendall(b'{"count":%d}\n' % count)
            until(lambda: collector.taken() > before, "a line comes while askers hang", 10)
            count, slowest = count + 1, max(slowest, time.monotonic() - begun)
    return count, slowest


def slow_askers_are_closed(room):
    """Eight askers with a byte a second and a thousand that say nothing don't hold up lines. Each is closed after its time,
    and then pages are answered."""
    port, pages, collector = free_port(), free_port(), Collector(free_port())
    collector.open()
    with Program(room, "slow_askers", configuration(port, collector.port, with_pages(pages)), blocks=BLOCKED) as program:
        program.connect(port).close()
        ends, stood, many = threading.Event(), [], []
        slow = [socket.create_connection((HOST, pages), timeout=5) for _ in range(8)]
        threads = [threading.Thread(target=trickle, args=(link, ends, stood), daemon=True) for link in slow]
        for thread in threads:
            thread.start()
        try:
            many = silent_peers(pages, 1_000)
            until(lambda: sum(map(stands, many)) == len(many), "a thousand askers are connected", 10)
            count, slowest = slowest_line(program, port, collector, ASKERS_PATIENCE + 2)
            open_files = len(os.listdir(f"/proc/{program.process.pid}/fd"))
        finally:
            ends.set()
            for link in many:
                link.close()
        for thread in threads:
            thread.join(5)
        holds(len(stood) == 8 and all(ASKERS_PATIENCE - 1 < seconds < ASKERS_PATIENCE + 2 for seconds in stood), f"askers were closed after {stood}")
        holds(count > ASKERS_PATIENCE and slowest < LINES_PATIENCE, f"{count} lines came, the slowest after {slowest:.2f} s")
        holds(open_files < 40, f"the program has {open_files} files open")
        begun = time.monotonic()
        holds("uptime_sec" in page(pages, "/api/v1/uptime")[1] and time.monotonic() - begun < 5, f"a page came after {time.monotonic() - begun:.1f} s")
        for link in slow:
            link.close()
        program.process.send_signal(signal.SIGTERM)
        status = program.end()
        holds(status == 0, f"status {status}: {program.stderr()!r}")
    collector.close()


CASES = (logged, quiet, given_up, refused_beside_a_reset, refused, unread_values, log_file_that_cannot_be_opened, asked, hostile_askers, slow_askers_are_closed)
