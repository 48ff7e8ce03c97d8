"""Words of a command line that belong elsewhere, each answered by the line to type: files of another kind, options of older
versions, and what people try first."""

import re
import shlex
import shutil
import unittest

from kit import MIXED, folder, run

from hinge.misplaced import FRONTS, MEANT, TAKES, advised, kind_of
from hingetulip_words.values import EXAMPLES


FRONT = {  # of a file of each kind, which comments and blank lines may precede
    "capture": b"\xd4\xc3\xb2\xa1",
    "picture": b"\x89PNG\r\n\x1a\n\0",
    "program": b"#!/bin/sh",
    "python": b"# a test\nimport socket\n",
    "history": b"dummynet-history,3",
    "report": b"event,row,flow,packet",
    "packets": b"moment,target",
    "failed-run": b'{\n "words": ["run"',
    "failure": b'{"words": ["net"',
    "summary": b'{"format": 1',
    "operations": b'{"client": 1',
    "faults": b"# a\nclient > server packet 3 lost",
    "net": b"\n# a\nhost a\n",
    "config": b"pipe 1 config",
    "timeline": b"5s outage 2s",
    "trace": b"0.5,1000\n",
}
# Command lines, in which FILE.KIND is a file of that kind, and what is said at their end.
LINES = rf"""
look FILE.net  =>  hinge net FILE.net --transcripts FOLDER, and hinge look FOLDER
look FILE.report  =>  FILE.report is a replay's report; write hinge look PACKETS FILE.report
look FILE.packets FILE.config  =>  write hinge look FILE.packets REPORT --config FILE.config
look FILE.config FILE.packets FILE.report  =>  write hinge look FILE.packets FILE.report --config FILE.config
look FILE.history 5  =>  write hinge why 5 FILE.history
look FILE.history a.png  =>  write -o a.png
look FILE.capture  =>  write hinge packets FILE.capture -o packets.csv
look --diff FILE.history FILE.picture  =>  FILE.picture is a picture or page, which hinge only writes
why 1 FILE.config  =>  write hinge why 1 FILE.config PACKETS REPORT
why all  =>  'all' isn't the number of a row; write hinge why ROW SOURCE, with a number from 1 on for ROW
why row 5  =>  'row' isn't the number of a row; write hinge why ROW SOURCE, with a number from 1 on for ROW
why last FILE.history  =>  'last' isn't the number of a row; FILE.history is a history; write hinge why ROW FILE.history
why row 5 FILE.history  =>  FILE.history is a history; write hinge why 5 FILE.history
why 2-4 FILE.history  =>  FILE.history is a history; write hinge why 2 3 4 FILE.history
why FILE.config FILE.packets FILE.report 5  =>  write hinge why 5 FILE.config FILE.packets FILE.report
why --row 5 FILE.history  =>  write hinge why 5 FILE.history
check FILE.faults  =>  FILE.faults: a list of faults; write hinge run --link 20ms --faults FILE.faults -- COMMAND
check FILE.net  =>  a net, not a configuration; `hinge net FILE.net --dry-run` checks it
check FILE.picture  =>  a picture or page, which hinge only writes
ipfw FILE.picture  =>  it isn't text; FILE.picture is a picture or page, which hinge only writes
ipfw FILE.net  =>  FILE.net is a network; write hinge net FILE.net
packets FILE.history  =>  FILE.history is a history; write hinge look FILE.history
net FILE.failure  =>  write hinge net --like FILE.failure
search FILE.failed-run  =>  write hinge run --like FILE.failed-run
run --config FILE.faults -- true  =>  FILE.faults is a list of faults; write hinge run --link 20ms --faults FILE.faults -- COMMAND
run --link 1ms -- FILE.program  =>  there is no FILE.program on the path: write ./FILE.program
run --link 1ms -- 'ping server'  =>  there is no ping server on the path: write sh -c 'ping server'
run -l 20ms -- true  =>  -l: write --link 20ms
run --frob -- true  =>  unrecognized arguments: --frob; `hinge help run` lists the options
run --link '20ms packet loss 5%' -- true  =>  'packet': not an option; write {', '.join(EXAMPLES[:-1])} or {EXAMPLES[-1]}
run --link 'up 1Mbit/s down 2Mbit/s' -- true  =>  'up': one way of a link; write --up LINK --down LINK, or LINK / LINK in a net's line
try wifi  =>  write --preset lossy-wifi
why FILE.history 5  =>  'FILE.history' isn't the number of a row; FILE.history is a history; write hinge why 5 FILE.history
check 'link a b 20ms'  =>  it reads files: printf '%s\n' 'link a b 20ms' | hinge net --dry-run /dev/stdin
check 10Mbit/s 20ms  =>  it reads files: printf '%s\n' 'pipe 1 config bw 10Mbit/s delay 20ms' | hinge check /dev/stdin
check 'my file'  =>  hinge check: my file: No such file or directory
packets FILE.capture out.csv  =>  write -o out.csv
packets FILE.capture -o out.pcap  =>  -o out.pcap: a packet file is a table; write -o out.csv
packets FILE.capture --map 'tcp -> pipe 3'  =>  write tcp => pipe 3
packets FILE.capture --map 'tcp 80 => pipe 3'  =>  '80': not a word of a rule; write port 80
packets FILE.capture --filter tcp  =>  write --map 'tcp port 80 => pipe 1'
net ./LOSS.net  =>  none of gilbert:P,R[,B[,G]] and list:N,N-M (examples: gilbert:0.01,0.3 and list:3,17-20); write a rate in the link: 20ms loss 5%
net ./KILL.net  =>  write at 1s kill a, and at 1s kill b in a line of its own
net FILE.net ping b  =>  a command comes after --, on the host of a line `main NAME` in FILE: write -- ping b
net MAIN.net -- ping b  =>  MAIN.net: a command behind -- takes a line `main NAME` without a command; write main a in MAIN.net
net a b 20ms  =>  write printf '%s\n' 'host a ping -c 3 b' 'host b' 'link a b 20ms' > a.net, and hinge net a.net
search FILE.net --seeds 1..10  =>  '1..10': no seeds up to 1000000; write 1-10
search FILE.net -n 100  =>  unrecognized arguments: -n 100; write hinge search FILE.net --seeds 1-100
search FILE.net -j4  =>  unrecognized arguments: -j4; write -P N
look --quiet  =>  unrecognized arguments: --quiet; `hinge help look` lists the options
look -- --quiet  =>  ./--quiet: No such file or directory
try 10Mbit/s  =>  write hinge run --link '10Mbit/s 20ms' -- COMMAND, as hinge try takes presets alone
run --link none -- true  =>  'none': no word of a link; write bw 0, which slows nothing
docs tc  =>  no page 'tc'; write hinge docs LINKS
change 20ms  =>  WORDS is missing, as in `hinge change link.socket up 1Mbit/s 50ms`; write hinge change NAME 20ms
search --seeds 1-3 -- true  =>  write hinge search --seeds 1-3 run -- true
net FILE.python  =>  FILE.python is a Python program; write hinge run --link 20ms -- python3 FILE.python
change FILE.net 20ms  =>  Connection refused; FILE.net is a network; write hinge up FILE.net, and hinge change FILE WORDS
--debug run --link 20ms -- true  =>  no command '--debug'; write hinge run --link 20ms -- true
--not-of-dummynet audit FILE.report  =>  dummynet: FILE.report is a replay's report; write hinge look PACKETS FILE.report
--not-of-dummynet FILE.packets FILE.config  =>  FILE.packets is a packet file; write dummynet replay FILE.config FILE.packets > REPORT
run --link 20ms --timeline FILE.act -- true  =>  'at 1s up 5ms': not a change; write 1s up 5ms
why 5 FILE.config FILE.packets  =>  FILE.config is a configuration; write hinge why 5 FILE.config FILE.packets REPORT
run FILE.config FILE.packets  =>  FILE.config is a configuration; write hinge run --config FILE.config -- COMMAND
run --link bw=10 -- true  =>  which has a unit; write bw 10Mbit/s
net ./CUT.net  =>  'cut': not a word of a net; write at 5s cut a
net ./HOSTS.net  =>  'hosts': not a word of a net; write host c, and the others each in a line of its own
net ./ALL.net  =>  'all': no host of this net; it has a, b
net FILE.net FILE.config  =>  a command comes after --, on the host of a line `main NAME` in FILE: write -- COMMAND
run --link 5ms --timeline FILE.late -- true  =>  '1s: 5ms': not a change; write 1s 5ms
run --link 5ms --faults FILE.lost -- true  =>  'client -> server packet 3 dropped': not a fault; write client > server packet 3 lost
run --up-trace 10Mbps -- true  =>  10Mbps: No such file or directory; write --up 10Mbit/s
run --config 'pipe 1 config bw 1Mbit/s' -- true  =>  write --line 'pipe 1 config bw 1Mbit/s'
run --line '1Mbit/s 20ms' -- true  =>  in full: pipe 1 config bw 1Mbit/s delay 20ms
run --preset dsl --loss 1% -- true  =>  write --up '384Kbit/s 25ms queue 10 loss 1%' --down '1500Kbit/s 25ms queue 30 loss 1%' in place of --preset dsl
run --up 20ms --loss 1% -- true  =>  write --up '20ms loss 1%' --down 'loss 1%'
run --server python3 -m http.server -- true  =>  write --server 'python3 -m http.server'
run --seeds 1-9 -- true  =>  write hinge search --seeds 1-9 run, with the other words behind it
run --seeds many -- true  =>  write hinge search --seeds 1-100 run, with the other words behind it
run --trace down:FILE.late -- true  =>  --trace: write --down-trace FILE.late
run --outage up:2s -- true  =>  write --timeline FILE with a line `5s up outage 2s` in FILE
run --outage long -- true  =>  write --timeline FILE with a line `5s outage 1s` in FILE
run --both up:20ms -- true  =>  --both: write --up 20ms
run --outside=yes -- true  =>  argument --outside: it has no value; leave out 'yes'
run --wait 5s -- true  =>  did you mean --server-wait?
run --link 'delay 20 ms, loss 1 %' -- true  =>  in full: 'delay 20ms loss 1%'
run --link 20-30ms -- true  =>  write 20ms jitter 10ms
run --link 10M/20ms -- true  =>  in full: '10Mbit/s 20ms'
run --link '1 second' -- true  =>  write 1000ms
run --link 'fast 3g' -- true  =>  write --preset fast-3g, or preset fast-3g in a net's line
run --link '5ms dup 1%' -- true  =>  in full: '5ms duplicate 1%'
udp 5000 localhost:6000 '8Mbps 20ms'  =>  write --link '8Mbit/s 20ms'
udp 5000 localhost:6000 --timeout 5  =>  --timeout: write timeout 5 before hinge
udp 5000 localhost:6000 --simulate  =>  no link does: --simulate here
plot FILE.history  =>  write hinge look FILE.history -o picture.png (hinge docs CAPTURE)
plot FILE.report  =>  FILE.report is a replay's report; write hinge look PACKETS FILE.report
replay FILE.config FILE.packets  =>  write dummynet replay FILE.config FILE.packets, or dummynet audit HISTORY (hinge docs FILES)
RUN --link 5ms -- true  =>  write hinge run --link 5ms -- true
docs run  =>  no page 'run'; `hinge help run` describes it.
ipfw sched 1 config type fifo  =>  this is a line of ipfw; no link does: sched (hinge docs LINKS)
run --link '50ms latency' -- true  =>  '50ms latency': the unit says this already; write 50ms
run --map 'dst port 443 => pipe 1' -- true  =>  'dst port': not a word of a rule; write dport
search FILE.net --runs 100  =>  --runs names a folder; write --seeds 1-100 for as many runs, or ./100 for a folder
why FILE.report  =>  'FILE.report' isn't the number of a row; FILE.report is a replay's report; write hinge why ROW CONFIG PACKETS FILE.report
run --delay 50ms±10ms --output a.png -- true  =>  write --link '40ms jitter 20ms' --transcript FILE, and hinge look FILE -o a.png
run --preset list  =>  not a preset; write --list-presets
run --timeline 'every 2s outage 5ms' -- true  =>  --timeline is a file of lines as 5s outage 2s (hinge docs LINKS)
run --trans x -- true  =>  did you mean --transcript?
run --link -5ms -- true  =>  argument --link: a value is missing; write --link=-5ms if it is this one
search --seeds 5  =>  FILE is missing, as in `hinge search store.net --seeds 1-200 --pauses drawn -o lost.hinge`
net FILE.net --seeds 1-10  =>  --seeds: write hinge search FILE --seeds 1-10
run FILE.script  =>  FILE.script is not executable: write chmod +x FILE.script
net FILE.net --duration 10s  =>  --duration: write timeout 10s before hinge, or --real-limit 10s of simulated time
net FILE.net --loss 5%  =>  --loss: write loss 5% in a line `link`, or a line `loss A B gilbert:0.01,0.3` in FILE
net FILE.net --link '10mbit 20ms'  =>  --link: write a line `link A B 10Mbit/s 20ms` in FILE
net FILE.net --log a --verbose  =>  --log, --verbose: write --transcript a; no link does: --verbose here
net FILE.net --graph  =>  --graph: write --transcripts FOLDER, and hinge look FOLDER -o FILE.png
net FILE.net --simulate  =>  --simulate: write --simulated
udp 5000 localhost  =>  argument SERVER: 'localhost' is neither PORT nor HOST:PORT
run 20ms ping server  =>  '20ms' isn't a command; write --link 20ms -- ping server
status FILE.net  =>  Connection refused; FILE.net is a network; write hinge up FILE.net, and hinge status FILE
FILE.config  =>  FILE.config is a configuration; write hinge run --config FILE.config -- COMMAND
look --why 3 FILE.history  =>  unrecognized arguments: --why; write hinge why 3 FILE.history
look FILE.history --audit  =>  write dummynet audit FILE.history
look FILE.history -o x.csv  =>  in place of -o write --csv > x.csv
look FILE.history --csv x.csv  =>  --csv prints the table; write --csv > x.csv
net exec a.socket a true  =>  write hinge exec NAME HOST -- COMMAND
packets FILE.capture --map 'ip.src == 10.0.0.1 && tcp.dstport == 443 => pipe 2'  =>  write src 10.0.0.1 tcp dport 443
packets FILE.capture --from 'ip.src == 10.0.0.1'  =>  isn't an address, a network or `first` (write 10.0.0.1)
run --preset wifi -- true  =>  not a preset; write lossy-wifi
run --link starlink -- true  =>  write --preset satellite, or preset satellite in a net's line
"""


class Misplaced(unittest.TestCase):
    def setUp(self) -> None:
        for kind, text in FRONT.items():
            (folder() / f"FILE.{kind}").write_bytes(text)
        (folder() / "FILE.program").chmod(0o755)
        nets = {
            "LOSS": "loss a b 5%",
            "KILL": "at 1s kill a and b",
            "CUT": "cut a at 5s",
            "HOSTS": "hosts c d",
            "ALL": "at 1s cut all",
            "MAIN": "",
        }
        lists = {"act": "at 1s up 5ms", "late": "1s: 5ms", "lost": "client -> server packet 3 dropped", "script": "#!/bin/sh"}
        nets = {f"{name}.net": line for name, line in nets.items()}
        for name, line in {**nets, **{f"FILE.{name}": line for name, line in lists.items()}}.items():
            (folder() / name).write_text(("host a sleep 9\nhost b sleep 9\nlink a b 1ms\n" if name.endswith(".net") else "") + line)
        shutil.copy(MIXED, folder() / "FILE.capture")

    def test_each_kind_is_known_by_its_front(self) -> None:
        self.assertEqual({kind: kind_of(str(folder() / f"FILE.{kind}")) for kind, _ in FRONTS}, {kind: kind for kind in FRONT})
        self.assertEqual(kind_of(str(folder())), "folder")

    def test_a_file_is_named_wherever_its_kind_does_not_belong(self) -> None:
        for place, taken in TAKES.items():
            command, *options = place.split()
            for kind in FRONT if taken else ():
                belongs = kind in taken.partition(",")[0].split() and (command, kind) != ("why", "config")
                text = advised(command, [*options, str(folder() / f"FILE.{kind}")], "refused")
                self.assertEqual(text == "refused", belongs, text)

    def test_no_word_that_people_try_is_an_option_and_each_line_for_it_is_taken(self) -> None:
        fills = {"SOURCE": "history", "NET": "net"} | {kind.upper(): kind for kind in FRONT}
        for tried, line in MEANT.items():
            command, word = tried.split()
            with self.subTest(tried):
                if word[0] == "-":
                    self.assertNotRegex(run(command, "--help").stdout, rf"(?m)^  (?:-.*, )?{re.escape(word)}[ ,\n]")
                for text in re.findall(r"hinge ((?:look|why|packets|docs|status|exec|down|change) [^,|]*)", line):
                    filled = re.sub("[A-Z]{3,}", lambda name: f"FILE.{fills[name[0]]}" if name[0] in fills else name[0], text)
                    self.assertNotIn("error:", run(*shlex.split(filled.replace("ROW", "1"))).stderr)

    def test_each_line_is_answered_by_the_line_to_type(self) -> None:
        for line, _, wanted in (row.partition("  =>  ") for row in LINES.strip().splitlines()):
            with self.subTest(line):
                done = run(*shlex.split(line))
                self.assertNotEqual(done.returncode, 0)
                self.assertIn(f"{wanted}\n", done.stdout + done.stderr)
                for advice in re.findall(r"write hinge ([^;,()]+)", wanted):
                    words = shlex.split(advice.replace("ROW", "1"))
                    self.assertNotIn("error:", run(*words).stderr if words[-1] != "run" and "--like" not in words else "", advice)
