"""A client in Python, live over a pipe: `python3 pipe.py PROGRAM`, the program that `docs/SERVE.md` is about.

A line is asked, and its answer is there before the next one is. The server is played by this file: it takes the body
of a push and answers a pull.
"""
import json
import subprocess
import sys

GROUP, ANNA = "00000000-0000-4000-8000-000000000001", "00000000-0000-4000-8000-00000000000a"
RULES = {"add": [["put", ["cat", "todo/", ["arg", "id"]], ["arg", "text"]]]}


class Fault(Exception):
    pass


class Replicache:
    def __init__(self, program):
        self.pipe = subprocess.Popen([program], stdin=subprocess.PIPE, stdout=subprocess.PIPE)

    def ask(self, line):
        """What the line is answered, behind its number."""
        self.pipe.stdin.write(line.encode() + b"\n")
        self.pipe.stdin.flush()
        _, _, answer = self.pipe.stdout.readline().decode().rstrip("\n").partition(" ")
        if answer.startswith("fault "):
            raise Fault(f"{line}: {answer}")
        return answer

    def call(self, client, command):
        return self.ask(f"{client} {command}").removeprefix(f"{client} ")

    def close(self):
        self.pipe.stdin.close()
        return self.pipe.wait()


def main(program):
    replicache = Replicache(program)
    for line in (f"group {GROUP}", f"client anna {ANNA}", f"rules {json.dumps(RULES)}", "phase"):
        assert replicache.ask(line) == "ok"
    assert replicache.call("anna", "watch list todo/ - -") == "watching"
    assert replicache.call("anna", 'mutate 1700000000000 add {"id":"x","text":"milk"}') == "id 1"
    assert replicache.call("anna", "poll list") == 'new [["todo/x","milk"]]'
    push = json.loads(replicache.call("anna", "push").removeprefix("push "))
    asked = json.loads(replicache.call("anna", "begin t").removeprefix("pull "))
    done = {m["clientID"]: m["id"] for m in push["mutations"]}
    todos = [m["args"] for m in push["mutations"]]
    patch = [{"op": "put", "key": "todo/" + todo["id"], "value": todo["text"] + "!"} for todo in todos]
    body = {"cookie": (asked["cookie"] or 0) + 1, "lastMutationIDChanges": done, "patch": patch}
    assert replicache.call("anna", f"end t {json.dumps(body)}") == "applied"
    assert replicache.call("anna", "poll list") == 'new [["todo/x","milk!"]]'
    assert replicache.call("anna", "pending") == "pending []"
    assert replicache.close() == 0
    print("pipe.py: as told")


main(sys.argv[1])
