"""A client of three nodes of etcd: it makes n1 the leader, sees the partition and its end, and says what each side did.

The links cut n1 from its peers in the meantime. Its last line is `consistent` where no value was lost."""

import base64
import json
import sys
import time
import urllib.request

NODES = ("n1", "n2", "n3")
PATIENCE = 60  # s for which anything is waited for
BEGUN = time.monotonic()


def asked(node, path, **body):
    """The answer of a node, or None where it has none within a second."""
    request = urllib.request.Request(
        f"http://{node}:2379/v3/{path}", json.dumps(body).encode(), {"Content-Type": "application/json"}
    )
    try:
        with urllib.request.urlopen(request, timeout=1) as answer:
            return json.load(answer)
    except OSError:
        return None


def put(node, value):
    return asked(node, "kv/put", key=base64.b64encode(b"key").decode(), value=base64.b64encode(value.encode()).decode()) is not None


def got(node):
    answer = asked(node, "kv/range", key=base64.b64encode(b"key").decode())
    return base64.b64decode(answer["kvs"][0]["value"]).decode() if answer and "kvs" in answer else None


def is_leader(node):
    status = asked(node, "maintenance/status")
    return bool(status) and status.get("leader") == status["header"]["member_id"]


def lead(node):
    """Whether a node leads, which the present leader is asked for."""
    if is_leader(node):
        return True
    member = (asked(node, "maintenance/status") or {"header": {}})["header"].get("member_id")
    for other in NODES:
        if member and is_leader(other):
            asked(other, "maintenance/transfer-leadership", targetID=member)
    return is_leader(node)


def until(what, holds):
    end = time.monotonic() + PATIENCE
    while not holds():
        if time.monotonic() > end:
            sys.exit(f"not within {PATIENCE} s: {what}")
        time.sleep(0.1)
    print(f"{time.monotonic() - BEGUN:5.1f} s  {what}", flush=True)


until("every node takes a value", lambda: all(put(node, "before") for node in NODES))
until("n1 leads", lambda: lead("n1"))
until("n1 takes no value: it is cut from its peers", lambda: not put("n1", "lost"))
until("the two others have a leader of their own, and take a value", lambda: put("n2", "during") and any(map(is_leader, NODES[1:])))
until("n1 has its peers back, and takes a value", lambda: put("n1", "after"))
until("every node has that value", lambda: [got(node) for node in NODES] == ["after"] * 3)
print("consistent")
