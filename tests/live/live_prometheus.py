"""A live run that Prometheus scrapes, where it is installed."""
import bisect
import contextlib
import http.server
import json
import os
import re
import shutil
import signal
import subprocess
import tempfile
import threading
import time
import urllib.parse

from live_log import BLOCKED, page
from live_room import HOST, Collector, Program, free_port, holds, until
from live_stored import send_message

# How long lines come, and how often Prometheus asks.
SECONDS = int(os.environ.get("FWD_LIVE_SCRAPED", "12"))
INTERVAL = 1

# A collector that is away for a third of the time, a port where nobody is, and a server that refuses each request.
SCRAPED = """[SERVICE]
    Flush 0.2
    Grace 20
    storage.path chunks
    storage.sync full
    scheduler.base 1
    scheduler.cap 1
    HTTP_Server On
    HTTP_Listen 127.0.0.1
    HTTP_Port {pages}
[INPUT]
    Name tcp
    Listen 127.0.0.1
    Port {tcp}
[INPUT]
    Name forward
    Listen 127.0.0.1
    Port {forward}
    storage.type filesystem
[OUTPUT]
    Name tcp
    Match *
    Host 127.0.0.1
    Port {collector}
    Format json_lines
    Retry_Limit no_limits
[OUTPUT]
    Name http
    Match *
    Host 127.0.0.1
    Port {nobody}
    Format json_lines
    Retry_Limit 1
[OUTPUT]
    Name http
    Match *
    Host 127.0.0.1
    Port {refusing}
    Format json_lines
"""

SCRAPES = """global:
  scrape_interval: {interval}s
  scrape_timeout: {interval}s
scrape_configs:
- job_name: fwd
  metrics_path: /api/v1/metrics/prometheus
  static_configs:
  - targets: ['{host}:{pages}']
"""

# Which metric has which number of the report.
INPUT_METRICS = {"batches": "fuztreb_input_batches_total", "events": "fluentbit_input_records_total", "refused": "fuztreb_input_refused_total"}
OUTPUT_METRICS = {
    "ok": "fuztreb_output_chunks_ok_total",
    "retry": "fluentbit_output_retries_total",
    "error": "fluentbit_output_errors_total",
    "spent": "fluentbit_output_retries_failed_total",
    "lost": "fuztreb_output_chunks_lost_total",
    "taken": "fluentbit_output_proc_bytes_total",
}
RUN_METRICS = {"loaded": "fuztreb_chunks_loaded_total", "unrouted": "fuztreb_chunks_unrouted_total", "left": "fuztreb_files_left_total", "faults": "fuztreb_faults_total"}


class Refusing(http.server.BaseHTTPRequestHandler):
    """Answers each request with 400."""

    def do_POST(self):
        self.rfile.read(int(self.headers["Content-Length"]))
        self.send_response(400)
        self.send_header("Content-Length", "0")
        self.end_headers()

    def log_message(self, *_):
        pass


class Prometheus:
    """Prometheus, which scrapes the pages of a program."""

    def __init__(self, folder, pages):
        self.port = free_port()
        with open(f"{folder}/prometheus.yml", "w") as file:
            file.write(SCRAPES.format(interval=INTERVAL, host=HOST, pages=pages))
        words = [f"--config.file={folder}/prometheus.yml", f"--storage.tsdb.path={folder}/data", f"--web.listen-address={HOST}:{self.port}"]
        self.process = subprocess.Popen(["prometheus", *words], stdout=subprocess.DEVNULL, stderr=subprocess.DEVNULL)

    def asked(self, query):
        """What a query gives; nothing while Prometheus isn't ready."""
        try:
            status, text = page(self.port, "/api/v1/query?" + urllib.parse.urlencode({"query": query}))
        except OSError:
            return []
        holds(status in (200, 503), f"Prometheus answers {query} with {text}")
        return json.loads(text)["data"]["result"] if status == 200 else []

    def number(self, query):
        found = self.asked(query)
        return float(found[0]["value"][1]) if found else 0

    def series(self):
        """The last value of each series of the program, by its metric and the name in it."""
        found = self.asked('{job="fwd",__name__=~"fluentbit.*|fuztreb.*"}')
        return {(one["metric"]["__name__"], one["metric"].get("name")): int(one["value"][1]) for one in found}

    def end(self):
        self.process.terminate()
        self.process.wait(20)


def numbers_of_report(report):
    """The numbers of the report, by the metric and the name that Prometheus has for each."""
    numbers = {}
    for line in report.splitlines():
        head, _, rest = line.partition(": ")
        kind, _, name = head.partition(" ")
        names, metrics = (name, {"input": INPUT_METRICS, "output": OUTPUT_METRICS}[kind]) if kind in ("input", "output") else (None, RUN_METRICS)
        for word, number in re.findall(r"([a-z]+) ([0-9]+)", rest if names else line):
            if word in metrics:
                numbers[metrics[word], names] = int(number)
    return numbers


def send_for_a_while(program, tcp, forward, collector):
    """Lines and messages come. Returns the time of each line."""
    times, ends = [], time.monotonic() + SECONDS
    with program.connect(tcp) as lines, program.connect(forward) as messages:
        while time.monotonic() < ends:
            times.append(time.time())
            lines.sendall(b'{"line":%d}\n' % len(times))
            if len(times) % 10 == 0:
                send_message(messages, len(times))
            is_away = 1 / 3 < 1 - (ends - time.monotonic()) / SECONDS < 2 / 3
            if is_away and collector.listens:
                collector.close()
            elif not (is_away or collector.listens):
                collector.open()
            time.sleep(0.01)
    return times


def look_at_samples(prometheus, times):
    """Each scrape succeeded, no counter fell, and each sample has the lines of its time."""
    scrapes = prometheus.number('count_over_time(up{job="fwd"}[10m])')
    holds(scrapes >= SECONDS / INTERVAL / 2, f"there were {scrapes} scrapes")
    holds(prometheus.number('sum_over_time(up{job="fwd"}[10m])') >= scrapes - 1, "a scrape failed")
    counters = prometheus.asked('{job="fwd",__name__=~".*_total"}[10m]')
    holds(len(counters) == len(prometheus.series()) - 4, f"there are {len(counters)} counters")
    for one in counters:
        values = [int(value) for _, value in one["values"]]
        holds(values == sorted(values), f"a counter fell: {one}")
    records = prometheus.asked('fluentbit_input_records_total{name="tcp.0"}[10m]')[0]["values"]
    for at, value in records:
        least, most = (bisect.bisect(times, at + slack) for slack in (-2 * INTERVAL, 2 * INTERVAL))
        holds(least <= int(value) <= most, f"a sample has {value} records, when between {least} and {most} had been sent")


def prometheus_scrapes(room):
    """What Prometheus has of a run is what was sent, and in the end what the report says."""
    if not shutil.which("prometheus"):
        print("live prometheus_scrapes: prometheus isn't installed", flush=True)
        return
    pages, tcp, forward, nobody, collector = free_port(), free_port(), free_port(), free_port(), Collector(free_port())
    collector.open()
    with contextlib.ExitStack() as after:
        folder = after.enter_context(tempfile.TemporaryDirectory())
        server = after.enter_context(http.server.ThreadingHTTPServer((HOST, 0), Refusing))
        threading.Thread(target=server.serve_forever, daemon=True).start()
        after.callback(server.shutdown)
        text = SCRAPED.format(pages=pages, tcp=tcp, forward=forward, collector=collector.port, nobody=nobody, refusing=server.server_port)
        program = after.enter_context(Program(room, "scraped", text, blocks=BLOCKED))
        program.connect(tcp).close()
        prometheus = Prometheus(folder, pages)
        after.callback(prometheus.end)
        until(lambda: prometheus.series(), "Prometheus scrapes the program", 60)
        times = send_for_a_while(program, tcp, forward, collector)
        until(lambda: prometheus.number('fluentbit_input_records_total{name="tcp.0"}') == len(times), "Prometheus has the records", 20)
        until(lambda: prometheus.asked("sum(fuztreb_chunks_owed) == 0"), "all chunks are delivered or given up", 20)
        settled = time.time()
        until(lambda: prometheus.number("timestamp(fluentbit_uptime)") > settled, "Prometheus scrapes once more", 20)
        look_at_samples(prometheus, times)
        series = prometheus.series()
        program.process.send_signal(signal.SIGTERM)
        status, report = program.end(), program.stdout().decode()
        collector.close()
    holds(status == 0, f"status {status}: {program.stderr()!r}")
    numbers = numbers_of_report(report)
    holds(len(numbers) == 2 * len(INPUT_METRICS) + 3 * len(OUTPUT_METRICS) + len(RUN_METRICS), f"the report is {report}")
    other = {key: (number, series.get(key)) for key, number in numbers.items() if number != series.get(key)}
    holds(not other, f"the report and Prometheus differ: {other}")
    metrics = ("fuztreb_output_chunks_ok_total", "tcp.0"), ("fluentbit_output_retries_total", "tcp.0"), ("fluentbit_output_retries_failed_total", "http.0"), ("fluentbit_output_errors_total", "http.1")
    holds(all(series[key] > 0 for key in metrics), f"not all of {metrics} rose: {series}")


CASES = (prometheus_scrapes,)
