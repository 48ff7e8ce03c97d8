"""Each growth of memory of some tests refused in turn: one pass for each test.

    python3 tools/gate/growths.py CRATE TESTS [IN_A_ROW]

TESTS is a module, as `heap::`, or the whole name of a test. With IN_A_ROW above 1 as many are refused one after the other. A refusal that
nobody sees proves nothing: where each growth is refused, one test at least has to fail for want of memory, and where some in a row are, one
at least has to make a call again. tools/gate/refused_growths.sh does it, over the tests that were built.
"""

import os
import re

from tally import TOP, Tally, judge, ran

ENDED = re.compile(
    r"^(\S+): each of \d+ growths refused in turn, .* made again in (\d+) runs; (fails|passes) without memory$", re.M
)


def main(tally: Tally, crate: str, tests: str, in_a_row: str = "1") -> None:
    script = TOP / "tools" / "gate" / "refused_growths.sh"
    done = ran(script, crate, tests, env={**os.environ, "REFUSE_IN_A_ROW": in_a_row})
    print(done.stdout, end="")
    broken = re.findall(r"^(\S+) fails where growth ", done.stdout, re.M)
    ended = ENDED.findall(done.stdout)
    for test, _, _ in ended:
        tally.note(test, "a run fails" if test in broken else "")
    if not ended or (done.returncode == 0) == bool(broken):
        tally.note(f"{crate}, {tests}", f"status {done.returncode}, {len(ended)} tests")
    tally.note(f"{crate}, {tests}, want of memory", "" if "fails" in [without for _, _, without in ended] else "no test sees it")
    if in_a_row != "1":
        tally.note(
            f"{crate}, {tests}, a call made again", "" if any(int(again) for _, again, _ in ended) else "no test makes one again"
        )


if __name__ == "__main__":
    judge(main)
