"""The line of a station that a JSON object was made of."""
import re

from harness import same


def escaped(text):
    data = re.sub(rb"\\x([0-9a-f]{2})", lambda m: bytes([int(m[1], 16)]), text.encode("utf-8"))
    return "".join(chr(b) if 0x21 <= b <= 0x7E and b != 0x25 else f"%{b:02X}" for b in data)


def piece_text(piece):
    if isinstance(piece, int):
        return str(piece)
    [(name, numbers)] = piece.items()
    left, right = {"set": "{}", "confed-sequence": "()", "confed-set": "[]"}[name]
    return left + ",".join(map(str, numbers)) + right


def or_dash(value, write=str):
    return "-" if value is None else write(value)


def route_text(f):
    path = or_dash(f["path"], lambda pieces: "_".join(map(piece_text, pieces)) or "empty")
    text = (f"{f['peer']} {f['view']} {f['prefix']} next={or_dash(f['next'])} origin={or_dash(f['origin'])} path={path}"
            f" med={or_dash(f['med'])} pref={or_dash(f['pref'])} atomic={'yes' if f['atomic'] else 'no'}"
            f" agg={or_dash(f['agg'], lambda a: str(a['asn']) + ':' + a['id'])} comm={','.join(f['comm']) or '-'}"
            f" other={','.join(map(str, f['other'])) or '-'}")
    return text + (f" id={f['id']}" if f["id"] is not None else "")


def full_text(f):
    """What a whole line has behind that, if it is one."""
    if "raw" not in f:
        return ""
    return (f" flags={','.join(f['flags'].values()) or '-'} large={','.join(f['large_communities']) or '-'}"
            f" ext={','.join(f['ext_communities']) or '-'} otc={or_dash(f['otc'])} aigp={or_dash(f['aigp'])}"
            f" originator={or_dash(f['originator'])} clusters={','.join(f['clusters']) or '-'}"
            f" raw={','.join(f'{code}:{value}' for code, value in f['raw'].items()) or '-'}")


def cause_text(f):
    return " ".join(str(f[name]) for name in ("cause", "offset", "why") if name in f)


def detail_text(f):
    if "notification" in f:
        return f"notification={f['notification']['code']}/{f['notification']['subcode']}"
    return f"event={f['event']}" if "event" in f else "-"


def router_text(f):
    """The line of a router; of a whole one also from where and when its last connection came, and what of it wasn't read."""
    parts = [f"router {f['router']} {f['state']}"]
    counts = [f"{name}={f[name]}" for name in ("peers", "messages", "bytes", "orphans", "unread", "mirrored", "passed") if name in f]
    counts += [f"{name}={escaped(f[name])}" for name in ("name", "descr") if name in f]
    opening = [f"{name}={or_dash(f[name])}" for name in ("from", "since", "until") if name in f]
    unread = [f"{name}={f[name]}" for name in ("tlvs", "stats", "malformed") if name in f]
    if "others" in f:
        unread += [f"others={','.join(f'{family}:{count}' for family, count in f['others'].items()) or '-'}", f"more={f['more']}"]
    if f["state"] == "closed":
        return " ".join([*parts, cause_text(f), *opening, *counts, *unread])
    return " ".join([*parts, *counts, *opening, *unread])


def text_of(f):
    """The line that a JSON object was made of."""
    kind = f["line"]
    if kind == "route":
        return f"route {f['router']} {route_text(f)}{full_text(f)}"
    if kind == "count":
        return f"count {f['rows']}"
    if kind == "lane":
        return f"lane {f['router']} {f['entries']}"
    if kind == "mark":
        rows = f" rows={f['rows']}" if "rows" in f else ""
        return f"mark {f['router']} {f['peer']} {f['view']} {f['family']} {'complete' if f['complete'] else 'waiting'}{rows}"
    if kind == "stat":
        family = f"{f['afi']}/{f['safi']} " if "afi" in f else ""
        return f"stat {f['router']} {f['peer']} {f['code']} {f['name']} {family}{f['value']}"
    if kind == "stop":
        return f"stop {cause_text(f)}"
    if kind == "steps":
        return f"steps {f['router']} {f['steps']}"
    if kind == "missed":
        return f"missed {f['steps']}"
    if kind == "router":
        return router_text(f)
    if kind == "peer":
        if f["state"] == "down":
            return f"peer {f['router']} {f['peer']} down {f['reason']} {f['name']} {detail_text(f)}"
        text = f"peer {f['router']} {f['peer']} up asn={f['asn']} id={f['id']} local={f['local']} ports={f['ports'][0]},{f['ports'][1]}"
        if "filtered" in f:
            text += f" filtered={'yes' if f['filtered'] else 'no'} table={or_dash(f['table'], escaped)}"
        return text
    same(kind, "change", "a line")
    head = f"change {f['router']} {f['step']} {f['change']}"
    times = f" seen={or_dash(f['seen'])} told={or_dash(f['told'])}" if "seen" in f else ""
    if f["change"] == "announce":
        return f"{head} {route_text(f)}{times}{full_text(f)}"
    if f["change"] == "closed":
        return f"{head} {cause_text(f)}{times}"
    if f["change"] == "withdraw":
        return f"{head} {f['peer']} {f['view']} {f['prefix']}" + (f" id={f['id']}" if f["id"] is not None else "") + times
    return (f"{head} {f['peer']}" if "peer" in f else head) + times
