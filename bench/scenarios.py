"""Scenarios of any size, and what the program has to say of them.

A workload's function writes a scenario of about so many messages, and answers how many lines and messages it has and
what its report has to end with.
"""
import json

MOST_LINES = 65535
SETTLE = '{"do":"settle"}\n'


def journal(name, kind="x-ndjson"):
    return {"name": name, "labels": {"content-type": ["application/" + kind]}}


def shard(id, sources, app, outputs):
    labels = {"app": [app], "output": outputs} if outputs else {"app": [app]}
    return {
        "id": id,
        "sources": [{"journal": name} for name in sources],
        "recovery_log_prefix": "recovery",
        "labels": labels,
    }


def specs(names, shards):
    logs = [journal("recovery/" + each["id"], "x-gazette-recoverylog") for each in shards]
    first = {"do": "specs", "journals": [journal(name) for name in names] + logs, "shards": shards}
    return json.dumps(first, separators=(",", ":")) + "\n"


def publish(name, first, count, producer=1):
    """A publish of so many messages, from this clock on. There are a hundred keys."""
    messages = ",".join(
        '{"flag":"outside","clock":%d,"key":"key%d","value":"1"}' % (clock, clock % 100)
        for clock in range(first, first + count)
    )
    return '{"do":"publish","client":"k1","journal":"%s","producer":%d,"messages":[%s]}\n' % (name, producer, messages)


def settles(out, messages):
    """One shard that counts. A publish has one message, and a settle follows after every hundredth. The scenario
    ends earlier where it would have more lines than a scenario may."""
    out.write(specs(["out", "src/a"], [shard("s1", ["src/a"], "count", ["out"])]))
    lines, published, settled = 1, 0, 0
    while published < messages and lines < MOST_LINES:
        published += 1
        out.write(publish("src/a", published, 1))
        lines += 1
        if published % 100 == 0 and lines < MOST_LINES:
            out.write(SETTLE)
            lines += 1
            settled = published
    status = "caught" if published == settled else "behind"
    return lines, published, ["shard s1 %d %d %s " % (settled // 100, settled, status)]


def many(out, messages):
    """64 shards that count. Each of 16 sources is read by four of them, and each has an output of its own. A publish
    has a hundred messages, and a settle follows when each source has got one."""
    sources = ["src/%02d" % i for i in range(16)]
    shards = [
        shard("s%02d" % i, [sources[i % 16]], "count", ["out/%02d" % i]) for i in range(64)
    ]
    out.write(specs(sources + ["out/%02d" % i for i in range(64)], shards))
    rounds = messages // 1600
    for number in range(rounds):
        for name in sources:
            out.write(publish(name, 1 + 100 * number, 100))
        out.write(SETTLE)
    told = ["shard s%02d %d %d caught " % (i, rounds, 100 * rounds) for i in range(64)]
    return 1 + 17 * rounds, 1600 * rounds, told


def chain(out, messages):
    """64 shards in a row, each of which passes on what the one behind it writes. Their ids stand against the
    direction of the row, so a settle needs as many rounds as there are shards. A publish has ten messages, and a settle
    follows after every tenth."""
    names = ["j%02d" % i for i in range(65)]
    shards = [
        shard("s%02d" % i, [names[64 - i - 1]], "relay", [names[64 - i]]) for i in range(64)
    ]
    out.write(specs(names, shards))
    rounds = messages // 100
    for number in range(rounds):
        for i in range(10):
            out.write(publish("j00", 1 + 100 * number + 10 * i, 10))
        out.write(SETTLE)
    told = ["shard s%02d %d %d caught " % (i, rounds, 100 * rounds) for i in range(64)]
    return 1 + 11 * rounds, 100 * rounds, told


def one_by_one(out, messages, producer_of):
    """One shard that counts. A publish has one message, of the producer of its number, and a settle follows after every
    hundredth."""
    for number in range(1, messages + 1):
        out.write(publish("src/a", number, 1, producer_of(number)))
        if number % 100 == 0:
            out.write(SETTLE)
    return messages + messages // 100, ["shard s1 %d %d caught " % (messages // 100, messages)]


def waiting(out, messages):
    """The same, behind a transaction that is left open: each step reads again from its line on."""
    out.write(specs(["out", "src/a"], [shard("s1", ["src/a"], "count", ["out"])]))
    out.write(
        '{"do":"publish","client":"k2","journal":"src/a","producer":2,"messages":[{"flag":"continue","clock":1}]}\n'
    )
    lines, told = one_by_one(out, messages, lambda number: 1)
    return 2 + lines, messages, told


def producers(out, messages):
    """The same, where each message has a producer of its own: a checkpoint names all that there were."""
    out.write(specs(["out", "src/a"], [shard("s1", ["src/a"], "count", ["out"])]))
    lines, told = one_by_one(out, messages, lambda number: number)
    return 1 + lines, messages, told


def small_publishes(out, count):
    """One shard that counts, which reads all at the end."""
    out.write(specs(["out", "src/a"], [shard("s1", ["src/a"], "count", ["out"])]))
    for number in range(1, count + 1):
        out.write(publish("src/a", number, 1))
    out.write(SETTLE)
    return 2 + count, count, ["shard s1 1 %d caught " % count]


def wide_publishes(out, count):
    """The same, with a hundred messages a publish."""
    out.write(specs(["out", "src/a"], [shard("s1", ["src/a"], "count", ["out"])]))
    for number in range(count):
        out.write(publish("src/a", 1 + 100 * number, 100))
    out.write(SETTLE)
    return 2 + count, 100 * count, ["shard s1 1 %d caught " % (100 * count)]


def commits(out, messages):
    """One shard that counts. A publish has one message, and a settle follows after each."""
    out.write(specs(["out", "src/a"], [shard("s1", ["src/a"], "count", ["out"])]))
    for number in range(1, messages + 1):
        out.write(publish("src/a", number, 1))
        out.write(SETTLE)
    return 1 + 2 * messages, messages, ["shard s1 %d %d caught " % (messages, messages)]


def journals(out, messages):
    """1,024 journals: one shard counts what one of them has, one is its output and one its log. A publish has one message,
    and goes to each of the other 1,022 in turn. A settle is at the end."""
    names = ["src/%04d" % i for i in range(1022)]
    out.write(specs(["out"] + names, [shard("s1", names[:1], "count", ["out"])]))
    for number in range(messages):
        out.write(publish(names[number % 1022], 1 + number, 1))
    out.write(SETTLE)
    taken = (messages + 1021) // 1022
    return 2 + messages, messages, ["shard s1 1 %d caught " % taken]


def applies(out, count):
    """Each line but the first is an apply of a journal and its log, and of a shard that reads it. The first 128 are new,
    and then each comes again, with all sixteen values of its label in turn. A publish of one message to the journal and a
    settle follow after every tenth."""
    out.write(specs(["out"], []))
    lines, published = 1, [0] * 128
    for number in range(count):
        place = number % 128
        name = "src/%03d" % place
        spec = shard("s%03d" % place, [name], "count", ["out"])
        spec["labels"]["turn"] = [str(number // 128 % 16)]
        both = [journal(name), journal("recovery/" + spec["id"], "x-gazette-recoverylog")]
        line = {"do": "apply", "journals": both, "shards": [spec]}
        out.write(json.dumps(line, separators=(",", ":")) + "\n")
        lines += 1
        if number % 10 == 9:
            out.write(publish(name, 1 + number, 1))
            out.write(SETTLE)
            lines += 2
            published[place] += 1
    told = ["shard s%03d %d %d caught " % (i, published[i], published[i]) for i in range(min(count, 128))]
    return lines, sum(published), told
