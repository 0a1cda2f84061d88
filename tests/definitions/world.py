"""Scripts as the set-up and the events of the definitions, and the definitions' lines as the text of a trace."""
import re
import values as V
from antt import Antt


def kebab(name):
    return re.sub(r"(?<!^)([A-Z])", r"-\1", name).lower()


def h(b):
    if type(b) is not bytes:
        raise TypeError("no bytes: %r" % (b,))
    return b.hex() or "-"


class Machine:
    def __init__(self, crates, coverage=False):
        self.antt = Antt(crates, coverage)
        get = self.get = self.antt.get
        self.command = {n: get("requester_machine.specs.Message.Command." + n)
                        for n in "Connect Open Send Beat Update Measure End Retry".split()}
        self.happening = {n: get("world_machine.specs.Happenings.Happening." + n)
                          for n in "Told Reply Deliver Lose Inject Pump Tick Show".split()}
        self.pick = {n.lower(): get("spdm_grammar.specs.declared.messages.choice.Pick.TheVariants." + n)
                     for n in "Small Large Both".split()}
        self.new_world = get("world_machine.specs.World.new_world")
        self.shown_lines = get("world_machine.specs.World.shown_lines")
        self.entry_step = get("world_machine.specs.World.entry_step")
        self.trace_lines = get("world_machine.specs.Trace.trace_lines")
        self.world_after = get("world_machine.specs.Trace.world_after")
        self.script_world = get("world_machine.specs.Setup.script_world")
        self.is_full = get("world_machine.specs.Trace.is_full")
        self.id_bytes = get("spdm_basis.specs.SessionIdBytes.session_id_bytes")

    # -- to the definitions

    def flags(self, f):
        return V.rec(measure="m" in f, heartbeat="h" in f, key_update="k" in f, chunk="c" in f)

    def suites(self, s):
        return V.rec(hash=self.pick[s[0]], aead=self.pick[s[1]])

    def setup(self, c):
        return self.script_world(self.configuration(c), c.seed, 0)

    def configuration(self, c):
        r = c.responder
        blocks = V.from_items([V.rec(index=i, value_type=k, tcb=bool(t), value=v) for i, k, t, v in r.blocks])
        return V.rec(
            responder=V.rec(eid=r.eid, transfer=r.transfer, max=r.max, unit=r.unit, beat=r.beat,
                            flags=self.flags(r.flags), opaque=r.opaque, blocks=blocks, suites=self.suites(r.suites)),
            requesters=V.from_items([V.rec(
                eid=q.eid, responder=r.eid, transfer=q.transfer, max=q.max, unit=q.unit, pad=q.pad,
                flags=self.flags(q.flags), hint=q.hint, psk=q.psk, opaque=q.opaque, suites=self.suites(q.suites))
                for q in c.requesters]))

    def event(self, e):
        k, H, C = e.kind, self.happening, self.command
        if k == "command":
            w, s, a = e.what, e.session, e.args
            if w == "open":
                c = C["Open"](a["summary"])
            elif w == "send":
                c = C["Send"](s, a["data"])
            elif w == "update":
                c = C["Update"](s, a["all"])
            elif w == "measure":
                c = C["Measure"](V.NONE if s is None else V.Some(s), a["op"])
            elif w in ("beat", "end"):
                c = C[w.capitalize()](s)
            else:
                c = C[w.capitalize()]
            return H["Told"](e.q, c)
        if k == "reply":
            return H["Reply"](e.q, e.data)
        if k in ("deliver", "lose"):
            return H[k.capitalize()](e.number)
        if k == "inject":
            return H["Inject"](e.data)
        if k == "pump":
            return H["Pump"](e.count)
        if k == "tick":
            return H["Tick"](e.seconds)
        return H["Show"]

    def entry(self, n, e):
        return V.rec(line=n, happening=self.event(e))

    # -- to text

    def id(self, i):
        return self.id_bytes(i.f_req, i.f_rsp).hex()

    def whose(self, w):
        return ("q%d" if name(w) == "Requester" else "r q%d") % w.a0

    def fault(self, f, words={"NoSuchSession": "no-session"}):
        return "ok" if f is V.NONE else "fault " + words.get(name(f.a0), kebab(name(f.a0)))

    def line(self, l):
        k = name(l)
        if k == "State":
            return "state %s %s" % (self.whose(l.a0), kebab(name(l.a1)))
        if k == "Session":
            v = l.a1
            return "session %s %s %s %d %d %d %d %d %s" % (
                self.whose(l.a0), self.id(v.f_id), kebab(name(v.f_stage)), v.f_request_epoch, v.f_response_epoch,
                v.f_request_next, v.f_response_next, v.f_taken, v.f_hash.hex())
        if k == "At":
            return "@%d" % l.a0
        if k == "Command":
            return "q%d %s" % (l.a0, self.fault(l.a1))
        if k == "Reply":
            return "r " + self.fault(l.a0)
        if k == "ToResponder":
            return "to r " + self.heard(l.a0)
        if k == "ToRequester":
            return "to q%d %s" % (l.a0, self.told(l.a1))
        if k == "ToNobody":
            return "nobody"
        if k == "Data":
            return "data %s %s %s" % (self.whose(l.a0), self.id(l.a1), h(l.a2))
        if k == "Record":
            return "record q%d %s" % (l.a0, h(l.a1))
        if k == "Packet":
            return "packet %d %s" % (l.a0, h(l.a1))
        if k == "NoPacket":
            return "no packet %d" % l.a0
        raise ValueError(k)

    def heard(self, x):
        k = name(x)
        if k in ("Answered", "Refused"):
            return "%s %02x" % (kebab(k), x.a0)
        if k == "Taken":
            return "taken " + self.id(x.a0)
        if k == "Ignored":
            return "ignored " + kebab(name(x.a0))
        return kebab(k)

    def told(self, x):
        k = name(x)
        if k in ("Refused", "Warned"):
            return "%s %02x" % (kebab(k), x.a0)
        if k == "Done":
            f = x.a0
            n = name(f)
            return "done " + kebab(n) + ("" if n == "Connected" else " %d" % f.a0 if n == "Measured" else " " + self.id(f.a0))
        if k == "Lost":
            return "lost " + self.id(x.a0)
        if k in ("Stopped", "Ignored"):
            return "%s %s" % (kebab(k), kebab(name(x.a0)))
        return kebab(k)

    def text(self, lines):
        return ["%s" % self.line(l) for l in V.items(lines)]

    def run(self, config, entries, worlds=None):
        """the set-up, the last world, and the lines of the trace in groups: at first, and by event"""
        w = self.setup(config)
        world = self.new_world(w)
        groups = [(0, self.text(self.shown_lines(world)))]
        for n, e in entries:
            entry = self.entry(n, e)
            if self.is_full(world, entry):
                raise OverflowError("the link is full")
            step = self.entry_step(world, entry)
            groups.append((n, self.text(step.f_lines)))
            world = step.f_after
            if worlds is not None:
                worlds.append(world)
        return w, world, groups


def name(v):
    return v.con.name.split(".")[-1]
