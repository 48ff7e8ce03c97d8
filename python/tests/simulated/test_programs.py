"""Widely used programs: two runs by one seed are equal byte for byte, and by two seeds they differ. docs/SIMULATED.md lists the programs.
Of the systems of examples/found each smallest failure breaks a claim, and for one seed the claim holds."""

import os
import re
import shutil
import subprocess
import sys
import unittest
from pathlib import Path

from hinge.net.disks import MAKER, MAKERS
from kit import TOP
from machines import LINK, Repeated, Simulated, needs

PROGRAMS = Path(__file__).resolve().parent / "programs"
ASKS = """head -c 100000 /dev/urandom > data
          for i in 1 2 3; do curl -s -D - -w '%{time_total} %{local_port}' http://server:8080/data | cksum; done"""
NGINX = """
daemon off; pid nginx.pid; user root; error_log stderr;
events {}
http {
    access_log off; client_body_temp_path body; proxy_temp_path proxy;
    fastcgi_temp_path fastcgi; scgi_temp_path scgi; uwsgi_temp_path uwsgi;
    server { listen 8080; root .; }
}
"""
SSHD = """
Port 2222
HostKey {0}/host
AuthorizedKeysFile {0}/user.pub
PidFile none
UsePAM no
StrictModes no
"""
SSH = (
    "ssh -F none -i {0}/user -p 2222 -o StrictHostKeyChecking=no -o UserKnownHostsFile=/dev/null -o LogLevel=ERROR "
    "server 'date +%N; head -c 9 /dev/urandom | od; sleep 1; head -c 100000 /dev/urandom' | cksum"
)
PAGE = """<p id="told"></p><script>document.getElementById("told").textContent = "a script was run"</script>"""
BENCHES = """bench="$(echo /usr/lib/postgresql/*/bin/pgbench) -h server -U postgres"
             $bench -i postgres 2>&1 && $bench -c 4 -t 25 --random-seed=rand postgres 2>&1 &&
             psql -h server -U postgres -c 'select now(), random(), gen_random_uuid(), txid_current()' &&
             psql -h server -U postgres -c 'select * from pgbench_history'"""
ETCD = (
    "exec etcd --data-dir data --log-level error --listen-client-urls http://10.8.0.2:2379 "
    "--advertise-client-urls http://server:2379 2>/dev/null"
)
PUTS = """export ETCDCTL_API=3 ETCDCTL_ENDPOINTS=http://server:2379
          for i in 1 2 3; do etcdctl put name$i value; done && etcdctl get --prefix name -w json"""


class OfServers(Repeated):
    def script(self, name: str, text: str) -> str:
        """Returns a file in the test's folder that is there before each run."""
        path = self.folder / name
        path.write_text(text)
        return str(path)

    @needs("nginx", "curl")
    def test_nginx(self) -> None:
        conf = self.script("nginx.conf", NGINX)
        self.twice("--server", f"exec nginx -p $PWD -c {conf} -e stderr", "--", "sh", "-c", ASKS)

    @needs("ssh", "ssh-keygen")
    def test_ssh(self) -> None:
        sshd = shutil.which("sshd") or "/usr/sbin/sshd"
        if not os.access(sshd, os.X_OK):
            self.skipTest("there is no sshd")
        for name in ("host", "user"):
            subprocess.run(["ssh-keygen", "-q", "-t", "ed25519", "-N", "", "-f", self.folder / name], check=True)
        conf = self.script("sshd.conf", SSHD.format(self.folder))
        asked = SSH.format(self.folder)
        self.twice("--server", f"mkdir -p /run/sshd; exec {sshd} -D -f {conf}", "--", "sh", "-c", asked)

    @needs("node")
    def test_node(self) -> None:
        self.twice("--server", f"exec node {PROGRAMS}/web.js serve", "--", "node", f"{PROGRAMS}/web.js")

    @needs("java", "javac")
    def test_java(self) -> None:
        """Java searches /tmp for files of ended programs, so the first run's files would change the second run."""
        subprocess.run(["javac", "-d", self.folder, PROGRAMS / "Web.java"], check=True)
        java = f"java -XX:-UsePerfData -cp {self.folder} Web"
        self.twice("--server-wait", "60s", "--server", f"exec {java} serve", "--", "sh", "-c", java)

    @needs("chromium")
    def test_chromium(self) -> None:
        """A browser loads a page, runs its script and ends, although one of its processes waits in the kernel for another process
        without a tick to wake it."""
        self.script("index.html", PAGE)
        browses = ["chromium", "--headless", "--no-sandbox", "--disable-gpu", "--dump-dom", "http://server:8000/"]
        serves = f"exec {sys.executable} -m http.server 8000 -d {self.folder} >/dev/null 2>&1"
        ran = self.run_by(7, *LINK, "--scratch", "--memory", "4G", "--server", serves, "--", *browses)
        self.assertEqual(ran.status, 0, ran.err)
        self.assertIn('<p id="told">a script was run</p>', ran.out)

    @needs("psql", "setpriv")
    def test_postgres(self) -> None:
        server = self.script("postgres.sh", (PROGRAMS / "postgres.sh").read_text())
        os.chmod(self.folder, 0o755)
        self.twice("--scratch", "--server-wait", "600s", "--server", f"exec sh {server}", "--", "sh", "-c", BENCHES)

    @needs("etcd", "etcdctl")
    def test_etcd(self) -> None:
        """A program in Go, whose map order, scheduler and processor counter repeat."""
        self.twice("--server", ETCD, "--", "sh", "-c", PUTS)


ECHO = str(Path(__file__).resolve().parent / "echo.py")
SERVES = f"exec {sys.executable} -m http.server 8080 2>/dev/null >&2"
DOWNLOADS = """head -c 100000 /dev/urandom > data
               curl -s -w '%{time_total} %{local_port}' http://server:8080/data | cksum"""
REDIS = "redis-server --port 7000 --save '' --bind 10.8.0.2 --protected-mode no >/dev/null"
ASKS_REDIS = (
    "redis='redis-cli -h server -p 7000'; for i in 1 2 3 4 5; do $redis incr n; $redis time; done; $redis info server | grep run_id"
)
SAME = (
    r"^hinge run: two runs by seed 7 are the same: \d+ bytes of standard output, 0 bytes of standard error, "
    r"\d+ bytes of the transcript\n$"
)
LOOKS = "ls -l /proc/self/fd | wc -l; date +%N; head -c 9 /dev/urandom | od"
PINGS_OF_DRAWN_LENGTHS = """echo first; ./it
                            for packet in 1 2 3; do ping -c 1 -s $((0x$(./it) & 1023)) server >/dev/null; done"""
DRAWS = """
#include <immintrin.h>
#include <stdio.h>
__attribute__((target("rdrnd"))) int main(void) {
    unsigned long long drawn;
    while (!_rdrand64_step(&drawn)) {}
    printf("%llx\\n", drawn >> 4);
}
"""


class OfPrograms(Repeated):
    @needs("ping")
    def test_a_ping(self) -> None:
        words = ["--", "ping", "-c", "200", "-i", "0.2", "server"]
        self.assertNotEqual(self.twice(*words).out, self.run_by(8, *LINK, *words).out)

    @needs("iperf3")
    def test_tcp(self) -> None:
        words = ["--server", "iperf3 -s -1", "--", "iperf3", "-c", "server", "-t", "3"]
        self.assertNotEqual(self.twice(*words).history, self.run_by(8, *LINK, *words).history)

    def test_asyncio(self) -> None:
        self.twice("--server", f"{sys.executable} {ECHO} serve", "--", sys.executable, ECHO)

    @needs("curl")
    def test_a_download(self) -> None:
        self.twice("--server", SERVES, "--", "sh", "-c", DOWNLOADS)

    @needs("redis-server", "redis-cli")
    def test_redis(self) -> None:
        self.twice("--server", REDIS, "--", "sh", "-c", ASKS_REDIS)

    def test_a_transcript_that_is_there_already(self) -> None:
        """The run overwrites an existing transcript, which doesn't influence the run."""
        words = ["--seed", "7", "--transcript", "h", *LINK, "--", "sh", "-c", LOOKS]
        one = self.started(*words)
        (self.folder / "h").write_text("another\n")
        self.assertEqual(self.started(*words).stdout, one.stdout)


class OfTwice(Repeated):
    def two_of(self, asked: str, *options: str) -> "subprocess.CompletedProcess[str]":
        return self.started("--twice", "--seed", "7", "--quiet", *options, "--", "sh", "-c", asked)

    def test_two_that_are_the_same(self) -> None:
        done = self.two_of("echo text; date +%N > there; cat there")
        self.assertEqual((done.returncode, done.stdout.splitlines()[0]), (0, "text"), done.stderr)
        self.assertRegex(done.stderr, SAME)
        self.assertFalse((self.folder / "there").exists())

    @needs("cc", "ping")
    def test_two_that_part(self) -> None:
        """With --cpu host nothing hides the processor's random numbers. The program draws one, prints a word, and sends three
        packets of drawn lengths, all equal in two runs once in 2^30; so the transcripts part at a packet's submission. A word keeps
        60 bits, since a shell reads all numbers above 2^63 as the greatest one."""
        self.compiled(DRAWS)
        done = self.two_of(PINGS_OF_DRAWN_LENGTHS, "--cpu", "host")
        self.assertEqual(done.returncode, 76, done.stdout + done.stderr)
        self.assertIn("two runs by seed 7 differ: standard output parts in line 2: '", done.stderr)
        self.assertRegex(
            done.stderr,
            r"the transcript parts in call \d+, at \d+\.\d{9} s: the calls differ\n"
            r"(?s:.*)\nhinge run: -  *\d+  c,0,submit,pipe,1,10.8.0.1,10.8.0.2,1,0,0,",
        )


RUN, LIMIT = TOP / "examples" / "found" / "run", 300  # s of real time
MAY_MOUNT = subprocess.run(["unshare", "-rm", "true"], capture_output=True).returncode == 0


@unittest.skipIf(shutil.which(MAKER, path=MAKERS) is None, f"there is no {MAKER}")
@unittest.skipUnless(MAY_MOUNT, "nothing may be mounted here")
class OfSystems(Simulated):
    def found(self, *words: str) -> "subprocess.CompletedProcess[str]":
        return subprocess.run([RUN, *words], capture_output=True, text=True, timeout=LIMIT)

    def test_the_smallest_failure_loses_what_was_acknowledged_shortly_before_the_crash_or_within_the_cut(self) -> None:
        """Redis promotes another node some seconds after the cut at 14.263 s, and SQLite with synchronous=full loses the last
        commit before the crash at 3.338 s. A run that loses nothing, or an older write, shows another fault."""
        for name, earliest, latest in ("redis", 14.2, 14.3 + 5.5), ("sqlite", 3.2, 3.338):
            with self.subTest(name):
                if name == "redis" and not shutil.which("redis-server"):
                    continue
                done = self.found(name)
                self.assertEqual(done.returncode, 1, done.stdout + done.stderr)
                begin, end = map(float, re.findall(r": add value \d+, from (\S+) to (\S+)\n", done.stdout)[0])
                self.assertTrue(earliest < begin <= end < latest, done.stdout)

    @needs("beanstalkd")
    def test_beanstalkd_keeps_jobs_that_it_acknowledged(self) -> None:
        done = self.found("./hinge", "net", "examples/found/beanstalkd/beanstalkd.net", "--simulated", "--scratch", "--seed", "2")
        self.assertEqual(done.returncode, 0, done.stdout + done.stderr)
        self.assertRegex(done.stderr, r"1,\d{3} operations on 1 key")
