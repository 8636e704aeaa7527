"""A scenario's run, done again in plain Python: what lands in each journal, which messages are committed, and what each
shard's commits take. `draw` draws it, and `draw --check` compares its report with the one beside each example."""
import json

LINES = "application/x-ndjson"
LOG = "application/x-gazette-recoverylog"
MOST_BYTES = 1_048_576


class Line:
    """A message line in a journal: where it stands, who wrote it, and what became of it."""

    def __init__(self, begin, producer, clock, flag, key, value):
        uuid = "0" * 36
        text = json.dumps({"key": key, "uuid": uuid, "value": value}, ensure_ascii=False, separators=(",", ":"))
        self.begin, self.end = begin, begin + len(text.encode()) + 1
        self.producer, self.clock, self.flag, self.key, self.value = producer, clock, flag, key, value
        self.kind = None


def release(lines):
    """The released messages of these lines, each with the end of the line that released it; sets each line's kind."""
    greatest, waiting, released = {}, {}, []
    for line in lines:
        floor, chain = greatest.get(line.producer, -1), waiting.setdefault(line.producer, [])
        if line.flag == "continue":
            is_new = line.clock > floor and all(line.clock > other.clock for other in chain)
            line.kind = "waiting" if is_new else "duplicate"
            if is_new:
                chain.append(line)
            continue
        if line.flag == "outside":
            line.kind = "committed" if line.clock > floor else "duplicate"
            freed = [line] if line.kind == "committed" else []
        else:
            line.kind = "ack"
            freed = [other for other in chain if other.clock <= line.clock]
        for other in chain:
            other.kind = "committed" if other in freed else "dropped"
        released += [(message, line.end) for message in freed]
        greatest[line.producer] = max(floor, line.clock)
        waiting[line.producer] = []
    return released


class Shard:
    """A shard: its definition, and what its commits have come to."""

    def __init__(self, spec, number):
        self.number, self.clock, self.commits, self.state, self.marks = number, 0, [], {}, {}
        self.define(spec)

    def define(self, spec):
        self.spec = spec
        self.id = spec["id"]
        self.is_disabled = spec.get("disable", False)
        self.app = spec["labels"]["app"][0]
        self.outputs = sorted(spec["labels"].get("output", []))
        self.sources = [(source["journal"], source.get("min_offset", 0)) for source in spec["sources"]]

    def take(self, message):
        """What the application emits for the message; the state is the one after it."""
        if self.app == "relay":
            return (message.key, message.value)
        if self.app == "latest":
            self.state[message.key] = message.value
            return None
        self.state[message.key] = self.state.get(message.key, 0) + 1
        return (message.key, str(self.state[message.key]))


class Run:
    """Journals, shards, and what was told."""

    def __init__(self, events):
        self.journals, self.contents, self.shards, self.told = {}, {}, {}, []
        self.members, self.live, self.clients = set(), set(), set()
        # for each event: the lines that landed in it, by journal, and the commits that were made, as (shard, messages)
        self.landed, self.made = [], []
        for number, event in enumerate(events, 1):
            self.landed.append({})
            self.made.append([])
            getattr(self, "on_" + event["do"])(number, event)

    # ---- what an event does

    def on_specs(self, number, event):
        self.define(event)
        for member in event.get("brokers", []) + event.get("consumers", []):
            self.members.add(member["id"])
            self.live.add(member["id"])

    def on_apply(self, number, event):
        for journal in event.get("journals", []):
            name = journal["name"]
            if name in self.contents and self.contents[name] != journal.get("labels", {}).get("content-type"):
                return self.told.append(f"refused {number} bad specs")
        names = set(self.contents) | {journal["name"] for journal in event.get("journals", [])}
        shards = {shard.id: shard.spec for shard in self.shards.values()}
        shards.update({spec["id"]: spec for spec in event.get("shards", [])})
        reads = {spec["id"]: {source["journal"] for source in spec["sources"]} for spec in shards.values()}
        writes = {spec["id"]: set(spec["labels"].get("output", [])) for spec in shards.values()}
        logs = {f"{spec['recovery_log_prefix']}/{spec['id']}" for spec in shards.values()}
        if not logs <= names or not set().union(*reads.values(), *writes.values()) <= names or feeds_itself(reads, writes):
            return self.told.append(f"refused {number} bad specs")
        self.define(event)

    def define(self, event):
        for journal in event.get("journals", []):
            self.contents.setdefault(journal["name"], journal.get("labels", {}).get("content-type"))
            self.journals.setdefault(journal["name"], [])
        for spec in sorted(event.get("shards", []), key=lambda spec: spec["id"]):
            if spec["id"] in self.shards:
                self.redefine(self.shards[spec["id"]], spec)
            else:
                self.shards[spec["id"]] = Shard(spec, len(self.shards) + 1)

    def redefine(self, shard, spec):
        """Another definition reads each source on from where the commits have read that journal to."""
        shard.define(spec)
        shard.marks = {journal: min(mark, self.end_of(journal)) for journal, mark in shard.marks.items()}

    def on_join(self, number, event):
        member = (event.get("broker") or event.get("consumer"))["id"]
        if is_reserved(member) or member in self.members or member in self.clients:
            self.told.append(f"refused {number} name used")
        elif len(self.members) == 64:
            self.told.append(f"refused {number} members full")
        else:
            self.members.add(member)
            self.live.add(member)

    def on_converge(self, number, event):
        """Routes and lists of consumers don't show in a report."""

    def on_expire(self, number, event):
        if event["member"] not in self.live:
            return self.told.append(f"refused {number} no member")
        self.live.discard(event["member"])

    def on_publish(self, number, event):
        client, journal = event["client"], event["journal"]
        if is_reserved(client) or client in self.members:
            return self.told.append(f"refused {number} name used")
        if journal not in self.journals:
            return self.told.append(f"refused {number} no route")
        self.clients.add(client)
        begin = self.end_of(journal)
        lines = lines_behind(begin, ("client", event.get("producer", 1)), event["messages"])
        if lines[-1].end - begin > MOST_BYTES:
            answer = f"too large {MOST_BYTES}"
        elif self.contents[journal] in (["application/x-protobuf-fixed"], [LOG]):
            answer = "not framed"
        else:
            self.land(journal, lines)
            answer = f"ok {begin} {lines[-1].end}"
        self.told.append(f"reply {number} {client} {answer}")

    def on_settle(self, number, event):
        while any([self.step(self.shards[name]) for name in sorted(self.shards)]):
            pass

    # ---- journals and steps

    def end_of(self, journal):
        lines = self.journals.get(journal, [])
        return lines[-1].end if lines else 0

    def land(self, journal, lines):
        self.journals[journal] += lines
        self.landed[-1].setdefault(journal, []).extend(lines)

    def untaken(self, shard):
        taken = []
        for journal, least in shard.sources:
            lines = [line for line in self.journals[journal] if line.begin >= least]
            kinds = [line.kind for line in lines]
            mark = shard.marks.get(journal, least)
            taken += [message for message, end in release(lines) if end > mark]
            for line, kind in zip(lines, kinds):
                line.kind = kind
        return taken

    def step(self, shard):
        """One step of a shard: all that is released and not yet taken is one commit. Whether it made one."""
        messages = [] if shard.is_disabled else self.untaken(shard)
        if not messages:
            return False
        outputs = {name: [] for name in shard.outputs}
        for message in messages:
            emitted = shard.take(message)
            if emitted:
                shard.clock += 1
                name = shard.outputs[sum(emitted[0].encode()) % len(shard.outputs)]
                outputs[name].append({"flag": "continue", "clock": shard.clock, "key": emitted[0], "value": emitted[1]})
        shard.clock += 1
        for name, drafts in outputs.items():
            if drafts:
                drafts.append({"flag": "ack", "clock": shard.clock})
                self.land(name, lines_behind(self.end_of(name), ("shard", shard.number), drafts))
        for journal, least in shard.sources:
            shard.marks[journal] = max(least, self.end_of(journal))
        shard.commits.append(len(messages))
        self.made[-1].append((shard.id, len(messages)))
        return True

    # ---- the report

    def report(self):
        text = list(self.told)
        for name in sorted(self.journals, key=str.encode):
            if self.contents[name] != [LOG]:
                text.append(f"journal {name} {self.end_of(name)} {len(release(self.journals[name]))} -")
        for name in sorted(self.shards, key=str.encode):
            shard = self.shards[name]
            status = "stalled disabled" if shard.is_disabled else "behind"
            if not self.untaken(shard):
                status = "caught"
            state = json.dumps(dict(sorted(shard.state.items())), ensure_ascii=False, separators=(",", ":"))
            text.append(f"shard {name} {len(shard.commits)} {sum(shard.commits)} {status} {state}")
        return "".join(line + "\n" for line in text)


def is_reserved(name):
    digits = name[6:] if name.startswith("client") else ""
    return name in ("keys", "store") or digits.isdecimal()


def feeds_itself(reads, writes):
    """Whether a shard reads, by whatever way round, what it writes."""
    after = {shard: {other for other in reads if reads[other] & writes[shard]} for shard in reads}
    reached = {shard: set(after[shard]) for shard in after}
    for _ in after:
        for shard in after:
            reached[shard] |= set().union(*(after[other] for other in reached[shard])) if reached[shard] else set()
    return any(shard in reached[shard] for shard in after)


def lines_behind(begin, producer, drafts):
    lines = []
    for draft in drafts:
        line = Line(begin, producer, draft["clock"], draft["flag"], draft.get("key", ""), draft.get("value", ""))
        lines.append(line)
        begin = line.end
    return lines


def run_file(path):
    with open(path, encoding="utf-8") as file:
        return Run([json.loads(text) for text in file if text.strip()])
