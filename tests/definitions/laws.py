"""What is said of every world, judged on one: the statements of world_machine's Chance and Agreement, as they stand,
with each quantifier over the values that occur in the world; and how often their premises hold."""
import values as V
import antt


def is_prefix(xs, ys):
    xs, ys = V.items(xs), V.items(ys)
    return ys[:len(xs)] == xs


antt.INSTEAD["Rattle.world_machine.specs.Agreement.IsPrefixOf"] = (2, "is_prefix({0},{1})")
V.is_prefix = is_prefix
INTERPRET_MAX = 250          # logs that are no longer are judged by the definitions too, longer ones by this file alone


class Judge:
    def __init__(self, m):
        self.m = m
        get = m.get
        m.antt.g["is_prefix"] = is_prefix
        m.antt.instead["Rattle.world_machine.specs.Agreement.IsPrefixOf"] = antt.Native(2, "is_prefix({0},{1})", "IsPrefixOf")
        A = "world_machine.specs.Agreement."
        for n in ("Agreement", "DataPrefix", "Matched", "HashesAgree", "SealedOnce", "holds", "requests_taken", "requests_sealed", "responses_taken", "responses_sealed", "ArePair", "HasOpened"):
            setattr(self, n, get(A + n))
        self.NoChance = get("world_machine.specs.Chance.NoChance")
        self.is_held = get("responder_machine.specs.Place.is_held")
        self.is_record = get("key_schedule.specs.Purpose.is_record")
        self.q_session = get("requester_machine.specs.Session.session_of")
        self.q_id = get("requester_machine.specs.Session.id_bytes")
        self.q_t2 = get("requester_machine.specs.Session.t2_of")
        self.r_session = get("responder_machine.specs.Session.session_of")
        self.r_id = get("responder_machine.specs.Session.id_bytes")
        self.r_t2 = get("responder_machine.specs.Session.t2_of")
        self.r_record = get("responder_machine.specs.Session.id_in_record")
        self.r_views = get("responder_machine.specs.Heard.views_of")
        d = m.antt.domains
        for n in ("Agreement", "DataPrefix", "Matched"):
            d[A + n, "a"] = lambda: self.requesters
            d[A + n, "c"] = lambda: self.connections
        d[A + "Agreement", "req"] = d[A + "IsMatched", "req"] = d[A + "IsMatched", "other"] = d[A + "HashesAgree", "req"] = lambda: range(0, 7)
        d[A + "HashesAgree", "a"] = lambda: self.requesters
        d[A + "HashesAgree", "c"] = lambda: self.connections
        d[A + "HashesAgree", "rsp"] = lambda: self.rsp_ids
        d[A + "IsMatched", "t2"] = lambda: self.t2s
        d[A + "Agreement", "rsp"] = lambda: self.rsp_ids
        d[A + "DataPrefix", "t2"] = lambda: self.t2s
        d[A + "SealedOnce", "p"] = lambda: self.purposes
        d[A + "SealedOnce", "number"] = lambda: self.numbers
        d[A + "SealedOnce", "b"] = d[A + "SealedOnce", "c"] = lambda: self.inputs

    def suffixes(self, h):
        while h:
            yield h
            h = V.tail(h)

    def world(self, w, x, total):
        """the statements that do not hold in a world"""
        bad = []
        self.requesters = V.items(x.f_requesters)
        self.connections = V.items(x.f_responder.f_connections)
        self.rsp_ids = sorted(set(range(0, 7)) | {0xffff} | {v.f_id.f_rsp for c in self.connections for v in V.items(self.r_views(c.f_history))})
        t2s = set()
        for a in self.requesters:
            for h in self.suffixes(a.f_history):
                for i in range(1, 5):
                    s = self.q_session(i, h)
                    if s:
                        t2s.add(self.q_t2(s))
        for c in self.connections:
            for h in self.suffixes(c.f_history):
                e = h.h
                if type(e).con.name.endswith(".Sealed"):
                    for g in (h, h.t):
                        t2s.add(self.r_t2(self.r_session(self.r_record(e.a1), g)))
        self.t2s = sorted(t2s)

        total["worlds judged"] += 1
        log = V.items(x.f_log)
        chance = self.no_chance(log)
        if len(log) <= INTERPRET_MAX:
            total["logs judged by the definition of NoChance"] += 1
            if self.NoChance(x.f_log) != chance:
                bad.append("NoChance is judged otherwise by laws.py")
        total["worlds with NoChance"] += chance
        total["acts"] += len(log)
        checked = [e for e in log if name(e) == "Checked"]
        total["checked acts"] += len(checked)
        total["checked acts whose value agrees"] += sum(e.a2 == e.a3 for e in checked)
        said = bad if chance else []          # where something agrees by chance, nothing is said

        both = req_open = same_id = 0
        for n, a in enumerate(self.requesters):
            for c in self.connections:
                if c.f_setup.f_peer != a.f_setup.f_eid:
                    continue
                for i in range(1, 5):
                    if not self.holds(a.f_history, i):
                        continue
                    req_open += 1
                    for j in self.rsp_ids:
                        if self.is_held(c.f_history, j):
                            both += 1
                            if self.q_id(self.q_session(i, a.f_history)) == self.r_id(self.r_session(j, c.f_history)):
                                same_id += 1
        total["sessions open at the requester"] += req_open
        total["pairs of open sessions with one id"] += same_id
        total["worlds with a pair of open sessions with one id"] += same_id > 0
        total["worlds with two such pairs or more"] += same_id > 1
        for n in ("Agreement", "DataPrefix", "Matched", "HashesAgree"):
            ok = getattr(self, n)(x)
            total["worlds with " + n] += ok
            if not ok:
                said.append(n + " does not hold")
                total["worlds without NoChance and without " + n] += not chance
        taken = answered = full = 0
        for a in self.requesters:
            for c in self.connections:
                if c.f_setup.f_peer != a.f_setup.f_eid:
                    continue
                for t2 in self.t2s:
                    k = V.length(self.requests_taken(t2, c.f_history))
                    l = V.length(self.responses_taken(t2, a.f_history))
                    taken += k
                    answered += l
                    full += k < V.length(self.requests_sealed(t2, a.f_history)) or l < V.length(self.responses_sealed(t2, c.f_history))
        total["requests' data taken"] += taken
        total["responses' data taken"] += answered
        total["worlds with data taken"] += taken + answered > 0
        total["worlds in which some data was sealed and not taken"] += full > 0

        made = [e for e in log if name(e) == "Made" and self.is_record(e.a0.f_kind)]
        by = {}
        once = True
        for e in made:
            number, rest = V.head(e.a1), V.tail(e.a1)
            k = (e.a0, number)
            once &= by.setdefault(k, rest) == rest
        total["worlds with SealedOnce"] += once
        total["records made"] += len(made)
        total["purposes of records"] += len({e.a0 for e in made})
        if len(made) <= 24:
            self.purposes = list({e.a0 for e in made})
            self.numbers = sorted({V.head(e.a1) for e in made})
            self.inputs = list({V.tail(e.a1) for e in made})
            total["logs judged by the definition of SealedOnce"] += 1
            if self.SealedOnce(x.f_log) != once:
                bad.append("SealedOnce is judged otherwise by laws.py")
        if not once:
            said.append("SealedOnce does not hold")
            total["worlds without NoChance and without SealedOnce"] += not chance
        return bad

    def no_chance(self, log):
        """as Chance.antt has it, the oldest act first"""
        seen, made = {}, set()
        for e in reversed(log):
            if seen.setdefault(e.a2, (e.a0, e.a1)) != (e.a0, e.a1):
                return False
            if name(e) == "Checked" and e.a2 == e.a3 and e.a2 not in made:
                return False
            if name(e) == "Made":
                made.add(e.a2)
        return True


def name(v):
    return v.con.name.split(".")[-1]
