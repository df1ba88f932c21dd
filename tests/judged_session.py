"""A capture that is written a transfer at a time, and what `fuseworld check` has to print of it."""
from fuse_frames import init_reply, init_request, reply, request
from past import Past
from standing import Standing


class Session:
    """The lines of a capture, and what is to be printed of it."""

    def __init__(self, about):
        self.lines = [f"# {about}"]
        self.faults = []
        self.past = Past()
        self.past.line(self.lines[0])
        self.counted = dict.fromkeys(("requests", "replies", "notifications", "refused"), 0)

    def line(self, words, *faults):
        """A line, and its faults, each as `PARTY: RULE` and what it is about; what the lines before say comes behind that."""
        self.lines.append(words)
        self.faults += [f"line {len(self.lines)}: {fault}{self.past.behind(words, fault)}" for fault in faults]
        self.past.line(words, faults)

    def read(self, frame, *faults, more=0):
        self.counted["requests"] += 1
        self.line(f"> {frame.hex()}" + (f" +{more}" if more else ""), *faults)

    def write(self, frame, *faults, errno=""):
        """A reply or a notification, and the errno with which the device refused it."""
        kind = "replies" if any(frame[8:16]) else "notifications"
        self.counted[kind] += 1
        self.counted["refused"] += kind == "replies" and errno != ""
        self.line(f"< {frame.hex()}" + (f" {errno}" if errno else ""), *faults)

    def ask(self, opcode, unique, nodeid, body=b"", answer=b"", error=0, faults=(), more=0):
        """A good request and its reply."""
        self.read(request(opcode, unique, nodeid, body), more=more)
        self.write(reply(unique, answer, error), *faults)

    def begin(self, **agreed):
        self.read(init_request())
        self.write(init_reply(**agreed))

    def standing(self):
        """What stands after the lines that are judged."""
        standing = Standing()
        for number, line in enumerate(self.lines, 1):
            standing.line(line)
            if any(fault.startswith(f"line {number}: not judged from here on") for fault in self.faults):
                break
        return standing

    def end(self, entries=0, forgotten=0, unanswered=0):
        """The two lines of counts, of which the last has the warnings too. A request is unanswered where it takes a reply, no reply under its number was written and
        not refused with ENOENT, and no later request took its number."""
        standing = self.standing()
        assert (standing.entries, standing.forgotten) == (entries, forgotten), (standing.entries, standing.forgotten)
        nodes, files = standing.counts()
        parties = [fault.split(": ")[1] for fault in self.faults]
        transfers = " ".join(f"{word} {count}" for word, count in self.counted.items())
        return "\n".join([
            *self.faults,
            f"{transfers} unanswered {unanswered} entries {entries} forgotten {forgotten} nodes {nodes} open {files}",
            "faults: " + " ".join(f"{party} {parties.count(party)}" for party in ("kernel", "server", "device"))
            + f", warnings {parties.count('warning')}", "",
        ])
