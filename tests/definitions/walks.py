"""The definitions of captures, run: all walks over the packets of a capture, each step judged by the definitions.

What a capture leaves free is guessed here: from what it shows, also later, and else by few values that stand for
all. Whether a guess is one is decided by the definitions alone: each set of dialogues is what `Leads` lets through,
and verdict, number, reason and table are `Conforms`, `IsFirstDifference`, `IsReason` and `HasTable`, evaluated. A
quantifier of theirs runs over the values that its entry below reads off the names bound before it.
"""
import antt
import values as V
import world
from values import NONE, Some, cons, rec, update

NONE_OF = {"OnTrue": (2, "((not {0}) or {1})"), "OnFalse": (2, "({0} or {1})")}
antt.NATIVE.update(NONE_OF)


class Code(antt.Code):
    """as there, but what a quantifier runs over may depend on the names bound before it"""

    def quantified(self, word, pairs, body, env):
        env = dict(env)
        loops = []
        for n, ty in pairs:
            known = ", ".join("%r: %s" % (k, v.py) for k, v in env.items() if isinstance(v, antt.Local) and v.arity is None)
            v = self.var(n)
            loops.append("for %s in domain(%r, %r, {%s})" % (v, self.m.name.replace("Rattle.", "") + "." + self.e.name, n, known))
            env[n] = antt.Local(v)
        return "%s(%s %s)" % (word, self.term(body, env), " ".join(loops))


antt.Code = Code
name = world.name
W = "world_machine.specs."
C = "capture_machine.specs."
REASONS = "BadPacket UnknownEnd WrongTurn BadRequest BadReply BadVerify BadRecord".split()


class Here:
    def __init__(self, **k):
        self.__dict__.update(k)


def some(o):
    """what an Option holds, or None"""
    return None if o is NONE else o.a0


def zeros(n):
    return bytes(max(0, n))


class Walks:
    def __init__(self, crates, coverage=False):
        m = self.m = world.Machine(crates, coverage)
        a = self.antt = m.antt
        a.domain = self.domain
        a.g["domain"] = self.domain
        g = m.get
        R, S, RQ = "responder_machine.specs.", "spdm_grammar.specs.", "requester_machine.specs."
        self.f = Here(
            parsed=g("mctp_framing.specs.Packet.parsed"), gathered_from=g("spdm_machine.specs.Packets.gathered_from"),
            new_dialogue=g(C + "Rounds.new_dialogue"), dialogue_at=g(C + "Rounds.dialogue_at"),
            with_dialogue=g(C + "Rounds.with_dialogue"), new_round=g(C + "Rounds.new_round"), towards=g(R + "Setup.towards"), known_of=g(W + "Setup.known_of"),
            new_draw=g(C + "Rounds.no_draw"), no_draw=None,
            asks=g(RQ + "Asking.asks"), hears=g(RQ + "Hearing.hears"), q_after=g(RQ + "Shown.after"),
            outstanding=g(RQ + "History.outstanding"), sent_count=g(RQ + "History.sent_count"), larges_of=g(RQ + "History.larges_of"), q_terms=g(RQ + "History.connection_terms"),
            q_session=g(RQ + "Session.session_of"), q_session_terms=g(RQ + "Session.session_terms"),
            q_live=g(RQ + "Session.is_live"), q_request_purpose=g(RQ + "Records.request_purpose"), q_request_next=g(RQ + "Session.request_next"),
            live_count=g(RQ + "Commands.live_count"),
            without_owed=g(C + "CapturedRequests.without_owed"), with_next=g(RQ + "Owed.with_next"),
            opens_asking=g(C + "Opening.opens_asking"), names=g(RQ + "Named.names"),
            first_piece=g(C + "LargeRequests.first_piece"), still_sending=g(C + "LargeRequests.still_sending"),
            with_ack=g(C + "LargeRequests.with_ack"), common_of=g(C + "LargeRequests.common_of"),
            judging=g(C + "LargeAnswers.judging"), is_large=g(C + "LargeAnswers.is_large"), unseen=g(C + "LargeAnswers.unseen"), is_unseen_in=g(C + "LargeAnswers.is_unseen_in"),
            place_named=g(C + "LargeAnswers.place_named"), with_large=g(C + "LargeAnswers.with_large"), repeats_large=g(C + "LargeAnswers.repeats_large"),
            place_again=g(C + "LargeAnswers.place_again"), is_kept_in=g(C + "LargeAnswers.is_kept_in"),
            place_of=g(C + "LargeAnswers.place_of"), dropped_before_large=g(C + "LargeAnswers.dropped_before_large"),
            while_fetched=g(C + "LargeAnswers.while_fetched"), gives_last=g(C + "LargeAnswers.gives_last"),
            tag_in=g(C + "CapturedAnswers.tag_in"), request_body=g(C + "CapturedAnswers.request_in"),
            MayDrop=g(R + "May.MayDrop"), with_dropped=g(R + "May.with_dropped"), on_body=g(R + "May.on_body"),
            r_after=g(R + "Responder.after"), body_of=g(R + "Responder.body_of"), sent_by=g(R + "Responder.sent_by"),
            session_turn=g(R + "Responder.session_turn"),
            held=g(R + "Place.is_held"), clear_place=g(R + "Place.clear_place"), session_place=g(R + "Place.session_place"), inside=g(R + "Place.inside"),
            place_terms=g(R + "Place.place_terms"), bytes_round=g(R + "Refusal.bytes_round"),
            chunk_in=g(R + "Handling.chunk_in"), request_at=g(R + "Answer.request_at"), answer_bytes=g(R + "Answer.answer_bytes"),
            under_way=g("chunking.specs.Collecting.under_way"), joined_with=g("chunking.specs.Collecting.joined_with"), chunks_of=g(R + "LargeMessages.chunks_of"),
            hash_len=g("spdm_machine.specs.Terms.hash_len"), r_session=g(R + "Session.session_of"), id_in_record=g(R + "Session.id_in_record"),
            r_session_terms=g(R + "Session.session_terms"), r_live=g(R + "Session.is_live"), opening_fault=g(R + "Records.opening_fault"), opened=g(R + "Records.opened"),
            reply_purpose=g(R + "Records.reply_purpose"), reply_number=g(R + "Records.reply_number"), response_purpose=g(R + "Records.response_purpose"),
            request_in=g(S + "Requests.request_in"), response_reading=g(S + "Responses.response_reading"),
            key_of=g("key_schedule.specs.Purpose.key_of"), iv_of=g("key_schedule.specs.Purpose.iv_of"),
            opened_text=g("secured_record.specs.Faults.opened_text"),
            Follows=g(C + "Capture.Follows"), Leads=g(C + "Capture.Leads"), Conforms=g(C + "Capture.Conforms"),
            IsFirstDifference=g(C + "Capture.IsFirstDifference"), IsReason=g(C + "Difference.IsReason"), IsDifference=g(C + "Difference.IsDifference"),
            rows_after=g(C + "SessionTable.rows_after"), LeadsShowing=g(C + "SessionTable.LeadsShowing"), HasTable=g(C + "SessionTable.HasTable"), seen=g(C + "SessionTable.seen"),
        )
        self.command = m.command
        self.Told = g(RQ + "History.Entry.Told")
        self.r_adds = g(R + "Responder.Outcome.Adds")
        self.q_adds = g(RQ + "Asking.Outcome.Adds")
        self.PskExchange = g(S + "Message.RequestMessage.PskExchange")
        self.GetVersion = g(S + "Message.RequestMessage.GetVersion")
        self.why = [g(C + "Difference.Why." + n) for n in REASONS]
        self.D, self.T, self.events = [], [], []
        self.kept = {}
        V.TABLES.append(self.kept)
        d = self.d = {}
        self.domains()
        # what hangs on the capture that is walked over, and not on its arguments alone
        self.of_capture = [C + "Capture.Leads", C + "Capture.Conforms", C + "SessionTable.LeadsShowing", C + "SessionTable.HasTable",
                           C + "Difference.IsVerifyApart", C + "Difference.IsOtherwiseWrong", C + "Difference.IsReason"]

    def fresh_capture(self):
        for n in self.of_capture:
            self.antt.remembered["Rattle." + n].clear()

    def domain(self, where, variable, known):
        return self.d[where.split(".")[-2] + "." + where.split(".")[-1], variable](Here(**known))

    # ---- keys

    def text_in(self, choice, purpose, number, sealed):
        """the text of a record: its inner message and its padding"""
        if len(sealed) < 26:
            return b"", b""
        text = self.f.opened_text(self.f.key_of(choice.f_hash, choice.f_aead, purpose), self.f.iv_of(choice.f_hash, purpose), number, sealed)
        n = int.from_bytes(text[:2], "little")
        return text[2:2 + n], text[2 + n:]

    # ---- the requester

    def pad_in(self, sent):
        return sent.f_content.a2 if sent is not None and name(sent.f_content) == "Sealed" else b""

    def q_free(self, h, sent=None, exchange=None, pad=None):
        """the free values of a message of a requester"""
        id, context, opaque = None, zeros(self.f.hash_len(self.f.q_terms(h))), b""
        if sent is not None:
            pad = self.pad_in(sent)
            if name(sent.f_aim) in ("Plain", "ByChunks") and name(sent.f_aim.a0) == "PskExchange":
                exchange = sent.f_aim.a0.a0
        if exchange is not None:
            id, context, opaque = exchange.f_req_id, exchange.f_context, exchange.f_opaque
        if id is None:
            id = next((i for i in (1, 2, 3, 4) if not self.f.q_live(self.f.q_session(i, h))), 1)
        return rec(id=id, context=context, opaque=opaque, pad=pad or b"")

    def commands_for(self, d, body):
        """commands, with free values, that may send a body"""
        h = d.f_requester
        if body[:1] == b"\x05":
            q = some(self.f.request_in(self.f.hash_len(self.f.q_terms(h)), body[1:]))
            if q is not None and name(q) == "PskExchange":
                yield self.command["Open"](q.a0.f_summary), self.q_free(h, exchange=q.a0)
            if q is not None and name(q) == "GetMeasurements":
                yield self.command["Measure"](NONE, q.a0), self.q_free(h)
        if body[:1] == b"\x06":
            for id in (1, 2, 3, 4):
                s = self.f.q_session(id, h)
                if not self.f.q_live(s) or not self.f.opens_asking(d.f_setup, s, body[1:]):
                    continue
                terms = self.f.q_session_terms(s)
                inner, pad = self.text_in(terms.f_choice, self.f.q_request_purpose(d.f_setup.f_psk, s), self.f.q_request_next(s), body[1:])
                f = self.q_free(h, pad=pad)
                if inner[:1] == b"\x01":
                    yield self.command["Send"](id, inner[1:]), f
                if inner[:1] == b"\x05":
                    q = some(self.f.request_in(self.f.hash_len(terms), inner[1:]))
                    n = name(q) if q is not None else ""
                    if n == "Heartbeat":
                        yield self.command["Beat"](id), f
                    if n == "EndSession":
                        yield self.command["End"](id), f
                    if n == "GetMeasurements":
                        yield self.command["Measure"](Some(id), q.a0), f
                    if n == "KeyUpdate":
                        yield self.command["Update"](id, False), f
                        yield self.command["Update"](id, True), f

    def told(self, q, h, command, f):
        o = self.f.asks(False, q, h, command, f, self.f.no_draw)
        return o.a0 if name(o) == "Adds" else None

    def chunk_of(self, body):
        """the chunk of CHUNK_SEND or CHUNK_RESPONSE in a body"""
        q = some(self.f.request_in(32, body[1:])) if body[:1] == b"\x05" else None
        return q.a0 if q is not None and name(q) == "ChunkSend" else None

    def whole_from(self, chunks):
        """a large message as its chunks show it, with zeros for what they do not show"""
        told, data, number, handle = 0, b"", 0, None
        for c in chunks:
            if c is None:
                continue
            if c.f_number != number or handle is not None and c.f_handle != handle:
                if handle is not None and c.f_number < number:
                    continue
                break
            if number == 0:
                told, handle = min(some(c.f_large) or 0, 70000), c.f_handle
            data, number = data + c.f_chunk, number + 1
            if c.f_last:
                break
        return data[:told] + zeros(told - len(data))

    def larges(self, d, first, later):
        """the bytes that may stand for a large request: from its chunks, in the rounds that follow"""
        whole = self.whole_from([first] + [self.chunk_of(b) for b in later])
        return [whole] if whole else []

    def large_some(self, d, command, after=None):
        """messages by which a command begins a large request: the least long one, and that of a history"""
        h = d.f_requester
        if name(command) != "Open":
            return []
        if type(after) is V.Cons and name(after.h) == "Told" and name(after.h.a1.f_aim) == "ByChunks" and name(after.h.a1.f_aim.a0) == "PskExchange":
            e = self.told(d.f_setup, h, command, self.q_free(h, exchange=after.h.a1.f_aim.a0.a0))
            return self.large_some(d, command) + ([e.a1] if e is not None and name(e) == "Told" else [])
        common = self.f.common_of(h)
        base = 12 + len(d.f_setup.f_hint)
        n = max(base + self.f.hash_len(self.f.q_terms(h)), common.f_to_responder.f_transfer + 1)
        if n > 5000:
            return []
        f = update(self.q_free(h), {"context": zeros(n - base)})
        e = self.told(d.f_setup, h, command, f)
        return [e.a1] if e is not None and name(e) == "Told" else []

    def sends(self, d, body, later):
        """guesses: histories of the requester after a body that begins a round, with the large request under way"""
        h, q, out = d.f_requester, d.f_setup, []
        w = self.f.without_owed(d)
        e = self.told(q, w, self.command["Connect"], self.q_free(w))
        if e is not None:
            out.append((cons(e, w), NONE))
        waiting = some(self.f.outstanding(h))
        for command, f in self.commands_for(d, body):
            e = self.told(q, h, command, f)
            if e is not None:
                out.append((cons(e, h), NONE))
        if waiting is not None:
            out.append((h, self.f.still_sending(h, d.f_sending, waiting.f_aim)))
        c = self.chunk_of(body)
        if c is not None:
            for whole in self.larges(d, c, later):
                asked = some(self.f.request_in(self.f.hash_len(self.f.q_terms(h)), whole))
                pairs = [(0, self.PskExchange(rec(summary=0, req_id=i, hint=b"", context=b"", opaque=b""))) for i in (1, 2, 3, 4)] + [(0, self.GetVersion)]
                for summary in (0, 1, 255):
                    pairs += [(summary, x.f_aim.a0) for x in self.large_some(d, self.command["Open"](summary))]
                if asked is not None:
                    pairs.append((asked.a0.f_summary if name(asked) == "PskExchange" else 0, asked))
                for summary, x in pairs:
                    out.append((cons(self.Told(self.command["Open"](summary), self.f.first_piece(h, x, whole), self.f.no_draw), h), Some(whole)))
                if waiting is not None and name(waiting.f_aim) == "ByChunks":
                    out.append((self.f.with_next(Some(self.f.first_piece(w, waiting.f_aim.a0, whole)), h), Some(whole)))
        return out

    def hearings(self, d, tag, answer, following):
        """guesses: histories of the requester after an answer; padding of what it sends then, from the request that follows"""
        h, q = d.f_requester, d.f_setup
        if d.f_sending is not NONE:
            return [self.f.with_ack(d.f_sending.a0, tag, answer[1:], h)]
        out, pads = [], [b""]
        for pad in pads:
            o = self.f.hears(q, h, False, tag, answer, self.q_free(h, pad=pad), self.f.no_draw)
            g = self.f.q_after(h, o)
            if g not in out:
                out.append(g)
            sent = some(self.f.outstanding(g))
            if len(pads) == 1 and g is not h and sent is not None and name(sent.f_content) == "Sealed" and following is not None and following[:1] == b"\x06":
                s = self.f.q_session(sent.f_aim.a0, self.f.with_next(NONE, g))
                choice = self.f.q_session_terms(s).f_choice
                if self.f.opens_asking(q, s, following[1:]):
                    pad = self.text_in(choice, self.f.q_request_purpose(q.f_psk, s), self.f.q_request_next(s), following[1:])[1]
                    if pad not in pads:
                        pads.append(pad)
        return out

    # ---- the responder

    def frees(self, r, h, tag, body, answer, whole=None, handle=None):
        """the free values of a responder that an answer shows, and some for what it does not show"""
        k = (r, h, tag, body, answer, whole, handle)
        if k in self.kept:
            return self.kept[k]
        f = self.f
        id = next((i for i in (1, 2, 3, 4) if not f.held(h, i)), 1)
        base = dict(id=id, context=b"", exchange_opaque=b"", nonce=bytes(32), measured_opaque=b"", handle=handle or 0, reply=b"", pad=b"")
        if body[:1] == b"\x05":
            p, m, got = f.clear_place(h), body[1:], answer[1:]
            c = some(f.chunk_in(f.request_at(p, m)))
            if c is not None:
                p, m, got = f.inside(p), f.joined_with(f.under_way(f.chunks_of(p.f_turns)), c), got[6:]
        else:
            s = f.r_session(f.id_in_record(body[1:]), h)
            p, m, got = f.session_place(s), b"", b""
            if f.r_live(s) and f.opening_fault(r.f_psk, s, body[1:]) is NONE:
                t = f.session_turn(r, s, f.opened(r.f_psk, s, body[1:]), rec(**base))
                m = t.f_message
                inner, base["pad"] = self.text_in(f.r_session_terms(s).f_choice, f.reply_purpose(r.f_psk, s, t), f.reply_number(s, t), answer[1:])
                got = inner[1:]
                if inner[:1] == b"\x01":
                    base["reply"] = got
                if len(base["pad"]) > 64:
                    base["pad"] = b""
        H = f.hash_len(f.place_terms(p))
        base["context"] = zeros(H)
        out = [rec(**base)]
        q = some(f.request_at(p, m))
        kind = name(q) if q is not None else ""
        if kind not in ("PskExchange", "GetMeasurements"):
            whole = None
        summary = kind == "PskExchange" and q.a0.f_summary != 0
        for text in ([whole] if whole else []) + ([got] if got else []):
            v = f.response_reading(H, summary, text)
            if name(v) != "Ok":
                continue
            v = v.a0
            if name(v) == "PskExchangeRsp":
                out.append(rec(**dict(base, id=v.a0.f_rsp_id, context=v.a0.f_context, exchange_opaque=v.a0.f_opaque)))
            elif name(v) == "Measurements":
                out.append(rec(**dict(base, nonce=v.a0.f_nonce, measured_opaque=v.a0.f_opaque)))
            elif name(v) == "Error":
                base["handle"] = v.a3[0] if len(v.a3) else base["handle"]
                out.append(rec(**base))
                if kind:
                    least = len(f.answer_bytes(r, p, m, out[0]))
                    ns = []
                    if v.a1 == 0x0d:
                        ns.append(int.from_bytes(v.a3[:4], "little"))
                    if v.a1 == 0x0f:
                        ns.append(f.place_terms(p).f_common.f_to_requester.f_transfer - f.bytes_round(p.f_at) + 1)
                    for n in ns:
                        more = n - least
                        if 0 <= more <= 70000:
                            out.append(rec(**dict(base, context=zeros(H + more)) if kind == "PskExchange" else dict(base, measured_opaque=zeros(more))))
        out = list(dict.fromkeys(out))
        self.kept[k] = out
        return out

    def shown_handle(self, e):
        """the handle that the LargeResponse of an entry shows"""
        t = e.a1 if name(e) == "Clear" else e.a2
        at = 10 if t.f_chunk is not NONE else 4
        return t.f_reply[at] if len(t.f_reply) > at else 0

    def drops(self, h):
        return [x for x in [b""] + [bytes([i]) for i in (1, 2, 3, 4)] if self.f.MayDrop(h, x)]

    def outcomes(self, r, h, dropped, tag, body, answer, whole=None, handle=None):
        g = self.f.with_dropped(h, dropped)
        return list(dict.fromkeys(self.f.on_body(r, g, tag, body, x, self.f.no_draw) for x in self.frees(r, g, tag, body, answer, whole, handle)))

    def kept_entry(self, place, h):
        """the entry with which a repeat is compared, and those before it"""
        while not self.f.is_kept_in(place, h.h):
            h = h.t
        return h.h, h.t

    def least_large(self, h, entry):
        return self.least_at(self.f.place_of(h, entry))

    def least_at(self, p):
        return zeros(self.f.place_terms(p).f_common.f_to_requester.f_transfer - self.f.bytes_round(p.f_at) + 1)

    def fetched(self, r, h, entry, later):
        """a large answer as the answers that follow show it"""
        chunks = []
        sealed = name(entry) == "Sealed"
        s = None
        if sealed:
            s = self.f.r_session(self.f.id_in_record(entry.a1), cons(entry, h))
            if not self.f.r_live(s):
                return None
            choice, purpose = self.f.r_session_terms(s).f_choice, self.f.response_purpose(r.f_psk, s)
        for body in later:
            if sealed:
                if body[:1] != b"\x06" or len(body) < 27:
                    continue
                inner = self.text_in(choice, purpose, int.from_bytes(body[5:7], "little"), body[1:])[0]
                text = inner[1:] if inner[:1] == b"\x05" else b""
            else:
                text = body[1:] if body[:1] == b"\x05" else b""
            v = self.f.response_reading(32, False, text)
            v = v.a0 if name(v) == "Ok" else None
            if v is None:
                continue
            if name(v) == "Version":
                break
            if name(v) == "ChunkResponse":
                chunks.append(v.a0)
        return self.whole_from(chunks) or None

    def answers(self, r, d, round, answer, later):
        """guesses: histories of the responder after an answer, with the large answer under way"""
        f, out = self.f, []
        tag, body = round.f_tag, round.f_body
        h = f.judging(d.f_fetching, body, d.f_responder)
        place = f.place_named(body)
        for dropped in self.drops(h):
            for o in self.outcomes(r, h, dropped, tag, body, answer):
                if f.body_of(o) != answer:
                    continue
                out.append((f.r_after(f.with_dropped(d.f_responder, dropped), o), d.f_fetching))
                if name(o) == "Same" and f.repeats_large(place, d.f_responder):
                    e, older = self.kept_entry(place, d.f_responder)
                    whole = self.fetched(r, older, e, later)
                    p = f.place_again(place, d.f_responder, d.f_responder)
                    for x in [self.least_at(p)] + ([whole] if whole else []):
                        out.append((d.f_responder, Some(x)))
                if name(o) != "Adds":
                    continue
                e = o.a0
                if f.is_large(e):
                    whole = self.fetched(r, h, e, later)
                    for x in [self.least_large(h, e)] + ([whole] if whole else []):
                        out.append((cons(f.unseen(e), d.f_responder), Some(x)))
                if dropped == b"" and f.gives_last(h, e) and d.f_fetching is not NONE:
                    for x in [b""] + [bytes([i]) for i in (1, 2, 3, 4)]:
                        out.append((cons(e, f.with_large(place, d.f_fetching.a0, f.dropped_before_large(place, x, d.f_responder))), NONE))
        return list(dict.fromkeys(out))

    # ---- what each quantifier runs over, by the names bound before it

    def domains(self):
        d, f = self.d, self.f
        opt = lambda o: [] if o is NONE else [o.a0]
        head = lambda l: l.h if type(l) is V.Cons else None
        told = lambda l: [l.h] if type(l) is V.Cons and name(l.h) == "Told" else []
        at = lambda eid, ds: opt(f.dialogue_at(eid, ds))
        fetchings = lambda x: list(dict.fromkeys([x.next.f_fetching, x.d.f_fetching, NONE]
                                                 + [o for h, o in self.answers(f.towards(x.w.f_responder, f.known_of(x.d.f_setup)), x.d, x.round, x.answer, [])]))
        d["Capture.Copies", "round"] = lambda x: opt(x.d.f_round)
        d["Capture.Begins", "h"] = lambda x: [x.next.f_requester]
        d["Capture.Begins", "sending"] = lambda x: [x.next.f_sending]
        d["Capture.Replies", "round"] = lambda x: opt(x.d.f_round)
        d["Capture.Replies", "h"] = lambda x: [x.next.f_responder]
        d["Capture.Replies", "fetching"] = fetchings
        d["Capture.Replies", "g"] = lambda x: [x.next.f_requester]
        d["Capture.ComesFrom", "next"] = lambda x: at(x.d.f_setup.f_eid, x.after)
        d["Capture.GoesTo", "next"] = lambda x: at(x.d.f_setup.f_eid, x.after)
        walks = self.lists
        d["Capture.Leads", "before"] = self.before
        d["Capture.Conforms", "ds"] = lambda x: walks(V.length(x.packets))

        d["CapturedRequests.Tells", "sent"] = lambda x: [e.a1 for e in told(x.after)]
        d["CapturedRequests.Commands", "command"] = lambda x: [e.a0 for e in told(x.after)]
        d["CapturedRequests.GoesOn", "sent"] = lambda x: opt(f.outstanding(x.d.f_requester))
        d["CapturedRequests.BeginsLarge", "command"] = lambda x: [e.a0 for e in told(x.after)]
        d["CapturedRequests.BeginsLarge", "some"] = lambda x: self.large_some(x.d, x.command, x.after)
        d["CapturedRequests.BeginsLarge", "asked"] = lambda x: [e.a1.f_aim.a0 for e in told(x.after) if name(e.a1.f_aim) == "ByChunks"]
        d["CapturedRequests.BeginsOwed", "sent"] = lambda x: opt(f.outstanding(x.d.f_requester))
        d["CapturedRequests.BeginsOwed", "asked"] = lambda x: [x.sent.f_aim.a0] if name(x.sent.f_aim) == "ByChunks" else []
        d["CapturedRequests.BeginsByChunks", "whole"] = lambda x: opt(x.sending)
        sent_in = lambda o: o.a0.a1 if name(o) == "Adds" and name(o.a0) == "Told" else None
        d["May.MayAsk", "f"] = lambda x: [self.q_free(x.h, sent=sent_in(x.outcome))]
        next_in = lambda o: some(f.outstanding(cons(o.a0, b""))) if name(o) == "Adds" else None
        d["May.MayHear", "f"] = lambda x: [self.q_free(x.h, pad=self.pad_in(next_in(x.outcome)))]

        def heard(x):
            if x.next is not x.d.f_requester and type(x.next) is V.Cons:
                return [self.q_adds(x.next.h)]
            return [f.hears(x.d.f_setup, x.d.f_requester, False, x.tag, x.answer, self.q_free(x.d.f_requester), f.no_draw)]
        d["CapturedAnswers.HearsWhile", "outcome"] = heard

        def free(x):
            whole = handle = None
            if name(x.outcome) == "Adds":
                e = x.outcome.a0
                t = e.a1 if name(e) == "Clear" else e.a2 if name(e) == "Sealed" else None
                if t is not None and name(t.f_effect) == "Took":
                    whole, handle = t.f_effect.a2, some(t.f_effect.a3)
            return self.frees(x.r, x.h, x.tag, x.body, f.body_of(x.outcome), whole, handle)
        d["CapturedAnswers.MayLeadTo", "f"] = free
        judged = lambda x: f.judging(x.d.f_fetching, x.round.f_body, x.d.f_responder)
        alone = [b""] + [bytes([i]) for i in (1, 2, 3, 4)]
        d["CapturedAnswers.AnswersPlainly", "dropped"] = lambda x: alone
        d["CapturedAnswers.AnswersPlainly", "outcome"] = lambda x: self.outcomes(x.r, judged(x), x.dropped, x.round.f_tag, x.round.f_body, x.answer)
        added = lambda x, dropped: [o.a0 for o in self.outcomes(x.r, judged(x), dropped, x.round.f_tag, x.round.f_body, x.answer) if name(o) == "Adds"]
        d["CapturedAnswers.AnswersLarge", "dropped"] = lambda x: alone
        d["CapturedAnswers.AnswersLarge", "entry"] = lambda x: added(x, x.dropped)
        d["CapturedAnswers.Completes", "whole"] = lambda x: opt(x.d.f_fetching)
        d["CapturedAnswers.Completes", "dropped"] = lambda x: alone
        d["CapturedAnswers.Completes", "entry"] = lambda x: added(x, b"")
        d["CapturedAnswers.Answers", "whole"] = lambda x: opt(x.fetching)

        # verify data that alone are wrong: what the answer would be with the right ones
        def right(x):
            out = []
            for dropped in self.drops(judged(x)):
                out += [f.body_of(o) for o in self.outcomes(x.r, judged(x), dropped, x.round.f_tag, x.round.f_body, x.answer)]
            return list(dict.fromkeys(out))
        pairs = lambda x: self.answers(x.r, x.d, x.round, x.other, [])
        d["Difference.RepliesApart", "other"] = right
        d["Difference.RepliesApart", "h"] = lambda x: list(dict.fromkeys(h for h, _ in pairs(x)))
        d["Difference.RepliesApart", "fetching"] = lambda x: list(dict.fromkeys(o for h, o in pairs(x) if h is x.h))

        def right_whole(x):
            h, place = x.d.f_responder, f.place_named(x.round.f_body)
            while type(h) is V.Cons and not f.is_unseen_in(place, h.h):
                h = h.t
            if type(h) is not V.Cons:
                return []
            e, older, out = h.h, h.t, []
            handle = self.shown_handle(e)
            for dropped in self.drops(older):
                for o in self.outcomes(x.r, older, dropped, f.tag_in(e), f.request_body(e), f.sent_by(e), x.whole, handle):
                    if name(o) == "Adds":
                        u = o.a0.a1 if name(o.a0) == "Clear" else o.a0.a2
                        if name(u.f_effect) == "Took":
                            out.append(u.f_effect.a2)
            return list(dict.fromkeys(out))
        d["Difference.CompletesApart", "whole"] = lambda x: opt(x.d.f_fetching)
        d["Difference.CompletesApart", "other"] = right_whole
        d["Difference.CompletesApart", "dropped"] = lambda x: alone
        d["Difference.CompletesApart", "entry"] = lambda x: added(x, b"")
        d["Difference.IsVerifyApart", "ds"] = lambda x: walks(V.length(x.older))
        d["Difference.IsOtherwiseWrong", "ds"] = lambda x: walks(V.length(x.older))

        rows = lambda n: self.T[n] if n < len(self.T) else []
        d["SessionTable.LeadsShowing", "before"] = self.before
        d["SessionTable.LeadsShowing", "earlier"] = lambda x: rows(V.length(x.older))
        d["SessionTable.HasTable", "ds"] = lambda x: walks(V.length(x.packets))
        d["SessionTable.HasTable", "rows"] = lambda x: rows(V.length(x.packets))

    # ---- a capture

    def read(self, w, packets):
        """each packet with the requester's end point, whether it is to the responder, and the body that it completes"""
        out, older = [], b""
        eids = [q.f_eid for q in V.items(w.f_requesters)]
        own = w.f_responder.f_eid
        for p in packets:
            v = self.f.parsed(p)
            x = None
            if name(v) == "Ok":
                v = v.a0
                if v.f_to == own and v.f_from in eids:
                    x = (v.f_from, True, self.f.gathered_from(own, v.f_from, older, v))
                elif v.f_from == own and v.f_to in eids:
                    x = (v.f_to, False, self.f.gathered_from(v.f_to, own, older, v))
            out.append(x)
            older = cons(p, older)
        return out

    def steps(self, w, d, event, i):
        """guesses: what a dialogue is after a packet of it"""
        eid, asks, g = event
        if name(g) != "Whole":
            return [d]
        route, body, out = g.a0, g.a1, [d]
        later = lambda asks: [x[2].a1 for x in self.events[i + 1:] if x and x[0] == eid and x[1] == asks and name(x[2]) == "Whole"]
        if asks:
            if d.f_round is not NONE:
                r = d.f_round.a0
                out.append(update(d, {"round": Some(update(r, {"waiting": r.f_waiting + 1}))}))
            for h, sending in self.sends(d, body, later(True) if body[:1] == b"\x05" and body[2:3] == b"\x85" else []):
                out.append(update(d, {"requester": h, "sending": sending, "round": Some(self.f.new_round(route.f_tag, body))}))
        elif d.f_round is not NONE:
            r = d.f_round.a0
            following = next((b for b in later(True) if b != r.f_body), None)
            gs = self.hearings(d, route.f_tag, body, following)
            large = b"\x7f\x0f" in body[:12] or body[:1] == b"\x06"
            for h, fetching in self.answers(self.f.towards(w.f_responder, self.f.known_of(d.f_setup)), d, r, body, later(False) if large else []):
                for g in gs:
                    out.append(update(d, {"requester": g, "responder": h, "fetching": self.f.while_fetched(g, fetching),
                                          "round": Some(update(r, {"waiting": max(0, r.f_waiting - 1), "answered": True}))}))
        return list(dict.fromkeys(out))

    def fewer(self, ds):
        """after GET_VERSION no session and no negotiation is left, and of what was sent before it the counts alone
        matter: of dialogues that differ in nothing else, one"""
        out = {}
        for d in ds:
            h = d.f_requester
            fresh = type(h) is V.Cons and name(h.h) == "Told" and name(h.h.a0) == "Connect"
            key = (self.f.sent_count(h), self.f.larges_of(h), h.h, update(d, {"requester": b""})) if fresh else d
            out.setdefault(key, d)
        return list(out.values())

    def lists(self, n):
        """lists of dialogues after n packets: the first of each, and with another one in one place. A packet touches
        one dialogue, so the others stand for themselves."""
        if n >= len(self.D):
            return []
        first = V.from_items([x[0] for x in self.D[n].values()])
        return [first] + [self.f.with_dialogue(d, first) for x in self.D[n].values() for d in x[1:]]

    def before(self, x):
        """lists from which a packet may have led to this one: it touched one dialogue"""
        n = V.length(x.older)
        e = self.events[n] if n < len(self.D) else None
        if e is None:
            return [x.ds]
        return [self.f.with_dialogue(d, x.ds) for d in self.D[n][e[0]]]

    def walk(self, w, packets, tables=True):
        """D: the dialogues after 0, 1, … packets, as far as there are any; T: the rows then"""
        self.fresh_capture()
        self.f.no_draw = self.f.new_draw()          # values are anew after V.forget()
        self.events = self.read(w, packets)
        self.D = [{q.f_eid: [self.f.new_dialogue(q)] for q in V.items(w.f_requesters)}]
        self.T = [[b""]]
        older = b""
        assert self.f.Leads(w, older, self.lists(0)[0])
        self.guesses = self.good = 0
        for i, p in enumerate(packets):
            e, given = self.events[i], cons(p, older)
            first = self.lists(i)[0]
            if e is None:
                assert not self.f.Leads(w, given, first)
                break
            cand = list(dict.fromkeys(n for d in self.D[i][e[0]] for n in self.steps(w, d, e, i)))
            good = [n for n in cand if self.f.Leads(w, given, self.f.with_dialogue(n, first))]
            self.guesses += len(cand)
            self.good += len(good)
            if not good:
                break
            good = self.fewer(good)
            self.D.append(dict(self.D[i], **{}))
            self.D[-1][e[0]] = good
            if tables:
                rows = []
                for x in self.lists(i + 1):
                    for b in self.before(Here(older=older, ds=x)):
                        for r in self.T[i]:
                            y = self.f.rows_after(b, x, r)
                            if y not in rows and self.f.LeadsShowing(w, given, x, y):
                                rows.append(y)
                self.T.append(rows)
            older = given
        return len(self.D) - 1

    def judge(self, config, packets):
        """(None, [tables]) or (number, [reasons])"""
        w = self.m.configuration(config)
        n = self.walk(w, packets)
        all = V.onto(packets, b"")
        if n == len(packets):
            assert self.f.Conforms(w, all)
            tables = []
            for rows in self.T[-1]:
                t = V.lmap(lambda r: self.f.seen(w, r), V.lreverse(rows))
                if t not in tables:
                    assert self.f.HasTable(w, all, t)
                    tables.append(t)
            return None, [self.table_text(t) for t in tables]
        k = n + 1
        assert self.f.IsFirstDifference(w, all, k)
        return k, [world.kebab(r) for r, y in zip(REASONS, self.why) if self.f.IsDifference(w, all, k, y)]

    def table_text(self, t):
        out = []
        for s in V.items(t):
            st = "ended" if s.f_stage is NONE else world.kebab(name(s.f_stage.a0))
            out.append("session q%d %s %s %s %d %d" % (s.f_requester, self.m.id(s.f_id), st, s.f_hash.hex(), s.f_sent, s.f_answered))
        return out
