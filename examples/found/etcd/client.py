"""Six clients of registers in etcd, by its gateway for JSON, two on each node."""

from __future__ import annotations

import base64
import http.client
import json
import sys
from pathlib import Path
from typing import Any, Optional

sys.path.insert(0, str(Path(__file__).parent.parent))
from operations import check_registers


def text(word: object) -> str:
    return base64.b64encode(json.dumps(word).encode()).decode()


def ask(client: int, what: str, **words: Any) -> dict[str, Any]:
    connection = http.client.HTTPConnection(f"n{client % 3 + 1}", 2379, timeout=2)
    connection.request("POST", f"/v3/kv/{what}", json.dumps(words))
    answer: dict[str, Any] = json.loads(connection.getresponse().read())
    if "error" in answer:
        raise OSError(answer["error"])
    return answer


def read(client: int, key: int) -> Optional[int]:
    rows = ask(client, "range", key=text(key)).get("kvs", [])
    return json.loads(base64.b64decode(rows[0]["value"])) if rows else None


def write(client: int, key: int, value: int) -> None:
    ask(client, "put", key=text(key), value=text(value))


def swap(client: int, key: int, old: Optional[int], new: int) -> bool:
    """Whether the register had the old value, and has the new one."""
    before: dict[str, object] = {"target": "VERSION", "version": 0} if old is None else {"target": "VALUE", "value": text(old)}
    compare: list[dict[str, object]] = [{"key": text(key), "result": "EQUAL", **before}]
    put = {"requestPut": {"key": text(key), "value": text(new)}}
    return bool(ask(client, "txn", compare=compare, success=[put]).get("succeeded"))


check_registers(read, write, swap)
