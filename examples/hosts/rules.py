"""Rules, mutators as data: what a text says as rules, and what they mean at a map. The twin of the crate rule_mutators.

    rules = read(text)                           # bytes; raises Fault, as told in docs/RULES.md
    entries = run(rules, name, args, entries)    # the map after the mutator, a new dict; raises Refused or Unknown
    run_on(rules, name, args, entries)           # changes the map itself, any mapping; what a refused one wrote stays
"""
import json, re

WRONG = 1
PARTS = {"arg": 1, "lit": 1, "get": 1, "has": 1, "not": 1, "field": 2, "or": 2, "same": 2, "add": 2, "sub": 2,
         "below": 2, "and": 2, "cat": None, "put": 2, "del": 1, "merge": 2, "need": 2, "if": 3}
STEPS = ("put", "del", "merge", "need", "if")
class Fault(Exception):
    def __init__(self, wrong, place=None):
        super().__init__(wrong if place is None else f"{place}: {wrong}")
class Refused(Exception):
    def __init__(self, code=WRONG): super().__init__(code); self.code = code
class Unknown(Exception): pass

# ---- JSON: whole numbers of 64 bits are ints, all others floats; nested at most 127 deep. Of two members of a name the
# last one counts; an overridden one has to be JSON all the same.
STRING = re.compile(r'"(?:[^"\\]|\\.)*"')
def number(text):
    n = int(text) if text.lstrip("-").isdigit() else None
    if n is not None and -2**63 <= n < 2**64 and text != "-0": return n
    if abs(float(text)) == float("inf"): raise ValueError("out of range")
    return float(text)
def constant(text): raise ValueError(text)
def inside(v): return list(v.values()) if type(v) is dict else v if type(v) is list else []
def depth(v): return 1 + max(map(depth, inside(v)), default=0) if type(v) in (dict, list) else 0
def is_whole(v): return type(v) is not float and all(map(is_whole, inside(v)))
def nests(text):
    deepest = now = 0
    for c in STRING.sub("", text):
        now += (c in "[{") - (c in "]}")
        deepest = max(deepest, now)
    return deepest
def value_of(text):
    try:
        text = text.decode("utf-8")
        value = json.loads(text, parse_int=number, parse_float=number, parse_constant=constant)
        for string in STRING.findall(text): json.loads(string).encode("utf-8")
    except (ValueError, RecursionError): value = Fault
    if value is Fault or nests(text) > 127: raise Fault("no JSON text, or one that nests too deep")
    return value
def compact(v): return json.dumps(v, sort_keys=True, separators=(",", ":"), ensure_ascii=False)

# ---- reading: the first fault in the order of reading. A place is a JSON Pointer, written as a JSON string has it.
def escaped(name): return json.dumps(name.replace("~", "~0").replace("/", "~1"), ensure_ascii=False)[1:-1]
def at(place, part): return f"{place}/{escaped(str(part))}"
def read(text):
    rules = value_of(text)
    if type(rules) is not dict: raise Fault("no JSON object")
    for name in sorted(rules): check_steps(at("", name), rules[name])
    return rules
def check_steps(place, steps):
    if type(steps) is not list: raise Fault("no list of steps", place)
    for i, step in enumerate(steps):
        if type(step) is not list: raise Fault("no step: an array that begins with a word", at(place, i))
        check_parts(at(place, i), step, True)
def check_parts(place, e, is_step):
    if not e or type(e[0]) is not str: raise Fault("no word", place)
    if e[0] not in PARTS or (e[0] in STEPS) != is_step: raise Fault("unknown word", place)
    if PARTS[e[0]] not in (None, len(e) - 1): raise Fault("wrong number of parts", place)
    for i, part in enumerate(e[1:], 1): check_part(at(place, i), e[0], i, part)
def check_part(place, word, i, part):
    if word == "if" and i > 1: check_steps(place, part)
    elif word == "arg":
        if type(part) is not str and not (type(part) is int and part >= 0):
            raise Fault("no argument: neither a place nor a name", place)
    elif word == "field" and i == 2:
        if type(part) is not str: raise Fault("no name: not a text", place)
    elif word == "need" and i == 2:
        if not (type(part) is int and 0 <= part < 2**32): raise Fault("no code: not a number below 2^32", place)
    elif word != "lit" and type(part) is list: check_parts(place, part, False)
    elif word != "lit" and type(part) is dict:
        for name in sorted(part): check_part(at(place, name), None, 1, part[name])
    elif not is_whole(part): raise Fault("a number is not whole, or does not fit 64 bits", place)

# ---- meaning
def need(v, is_right):
    if not is_right: raise Refused()
    return v
def truth(v): return need(v, type(v) is bool)
def whole(v): return need(v, type(v) is int and -2**63 <= v < 2**63)
def kept(v): return need(v, depth(v) <= 124 and is_whole(v))
def wording(v): return v if type(v) is str else str(whole(v))
def argument(which, args):
    kind = list if type(which) is int else dict
    need(args, type(args) is kind and (which < len(args) if kind is list else which in args))
    return args[which]
def value(e, args, m):
    if type(e) is dict: return {name: value(e[name], args, m) for name in sorted(e)}
    if type(e) is not list: return e
    word, parts = e[0], e[1:]
    if word == "arg": return argument(parts[0], args)
    if word == "lit": return parts[0]
    if word == "cat": return "".join([wording(value(part, args, m)) for part in parts])
    a = value(parts[0], args, m)
    if word == "get": return m.get(wording(a))
    if word == "has": return wording(a) in m
    if word == "not": return not truth(a)
    if word == "field": return a.get(parts[1]) if type(a) is dict else None
    if word == "or" and a is not None: return a
    b = value(parts[1], args, m)
    if word == "or": return b
    if word == "same": return compact(kept(a)) == compact(kept(b))
    if word == "add": return whole(whole(a) + whole(b))
    if word == "sub": return whole(whole(a) - whole(b))
    if word == "below": return whole(a) < whole(b)
    return all([truth(a), truth(b)])
def do(steps, args, m):
    for word, a, *parts in steps:
        a = value(a, args, m)
        if word == "put": m[wording(a)] = kept(value(parts[0], args, m))
        elif word == "del": m.pop(wording(a), None)
        elif word == "merge":
            key, more = wording(a), value(parts[0], args, m)
            there = m.get(key)
            m[key] = kept({**need(there, type(there) is dict), **need(more, type(more) is dict)})
        elif word == "need":
            if not truth(a): raise Refused(parts[0])
        else: do(parts[0] if truth(a) else parts[1], args, m)
def script(name, args, m, rebased):
    n = {"set": 2, "incr": 2, "append": 2, "del": 1, "tag": 1}.get(name)
    if n is None: raise Unknown(name)
    need(args, type(args) is list and len(args) == n and type(args[0]) is str)
    key, other = args[0], "r" if rebased else "i"
    if n == 2: other = args[1]
    if name == "set": m[key] = other
    elif name == "del": m.pop(key, None)
    elif name == "incr":
        whole(other)
        if key not in m: raise Refused(2)
        if type(m[key]) is not int or m[key] >= 2**63: raise Refused(3)
        if not -2**63 <= m[key] + other < 2**63: raise Refused(4)
        m[key] += other
    else:
        need(other, type(other) is str)
        if type(m.get(key, "")) is not str: raise Refused(3)
        m[key] = m.get(key, "") + other
def run_on(rules, name, args, m, rebased=False):
    if name in rules: do(rules[name], args, m)
    else: script(name, args, m, rebased)
def run(rules, name, args, entries, rebased=False):
    m = dict(entries)
    run_on(rules, name, args, m, rebased)
    return m
