"""The log of blocks: etcd, spoken to over the JSON gateway of its members."""
import base64
import http.client
import json
import time

FAULTS = (OSError, http.client.HTTPException, ValueError, KeyError, TypeError, AttributeError)


class Stop(Exception):
    """Why a validator, or a whole run, ends."""


def coded(text):
    """Bytes or a text in base64, as the gateway has them."""
    return base64.b64encode(text.encode() if isinstance(text, str) else text).decode()


def span_of(prefix):
    """All keys that begin so."""
    return {"key": coded(prefix), "range_end": coded(prefix[:-1] + chr(ord(prefix[-1]) + 1))}


class Engine:
    """The log, by whichever member answers. Every thread has one of its own."""

    def __init__(self, members, patience):
        self.members = [it.removeprefix("http://").rstrip("/") for it in members]
        self.patience, self.connection = patience, None

    def posted(self, path, question, seconds):
        """The response of the present member to a question."""
        if self.connection is None:
            self.connection = http.client.HTTPConnection(self.members[0], timeout=seconds)
        self.connection.request("POST", path, json.dumps(question), {"Content-Type": "application/json"})
        response = self.connection.getresponse()
        if response.status != 200:
            raise OSError(f"status {response.status}, {response.read(200).decode(errors='replace').strip()}")
        return response

    def turned_from(self, error, heard):
        """Goes on with the next member, or stops where none has answered for too long. Tells the cause."""
        cause = f"{self.members[0]}: {type(error).__name__}, {error}"
        if self.connection is not None:
            self.connection.close()
        self.connection, self.members = None, self.members[1:] + self.members[:1]
        if time.monotonic() - heard > self.patience:
            raise Stop(f"the engine has not answered for {self.patience:g} s ({cause})") from error
        time.sleep(0.05)

    def ask(self, path, question):
        """The answer of the first member that gives one. A question may be asked twice."""
        begun = time.monotonic()
        while True:
            try:
                answer = json.loads(self.posted(path, question, self.patience / 8).read())
                if not isinstance(answer, dict) or "header" not in answer:
                    raise ValueError(f"no answer of etcd's: {str(answer)[:80]}")
                return answer
            except FAULTS as error:
                self.turned_from(error, begun)

    def put_first(self, key, value):
        """Sets a key that has no revision yet, and leaves any other one: of all who try it, one wins."""
        is_new = {"key": coded(key), "target": "CREATE", "result": "EQUAL", "create_revision": "0"}
        put = {"request_put": {"key": coded(key), "value": coded(value)}}
        return self.ask("/v3/kv/txn", {"compare": [is_new], "success": [put]}).get("succeeded", False)

    def get(self, key):
        """The value of a key and the revision that set it; or nothing and 0."""
        for found in self.ask("/v3/kv/range", {"key": coded(key)}).get("kvs", []):
            return base64.b64decode(found.get("value", "")), int(found["mod_revision"])
        return None, 0

    def count(self, prefix):
        """How many keys begin so."""
        return int(self.ask("/v3/kv/range", {**span_of(prefix), "count_only": True}).get("count", 0))

    def changes(self, prefix, revision):
        """Each key that begins so and its value, as they were set from a revision on, without end."""
        heard = time.monotonic()
        while True:
            try:
                start = {"create_request": {**span_of(prefix), "start_revision": str(revision)}}
                for line in self.posted("/v3/watch", start, self.patience / 3):
                    result = json.loads(line)["result"]
                    heard = time.monotonic()
                    if result.get("canceled"):
                        raise Stop(f"the engine ended the watch: {result.get('cancel_reason') or result}")
                    for event in result.get("events", []):
                        pair = event["kv"]
                        revision = int(pair["mod_revision"]) + 1
                        yield base64.b64decode(pair["key"]).decode(), base64.b64decode(pair.get("value", ""))
                raise OSError("the watch ended")
            except FAULTS as error:
                self.turned_from(error, heard)
