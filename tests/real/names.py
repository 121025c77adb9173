"""Which link of a real host stands for which of a dump: a plugin names host ends and hardware addresses at random."""


class Names:
    """The real names of host ends and hardware addresses, learnt from the first plugin's answers."""

    def __init__(self):
        self.ends, self.macs = {}, {}

    def learn(self, model, real):
        """From two results, whose interfaces stand in one order."""
        for ours, theirs in zip(model.get("interfaces", []), real.get("interfaces") or []):
            if ours["name"].startswith("veth"):
                self.ends[ours["name"]] = theirs["name"]
            if "mac" in ours and "mac" in theirs:
                self.macs[ours["mac"]] = theirs["mac"]

    def end(self, name):
        return self.ends.get(name, name)

    def mac(self, text):
        return self.macs.get(text, text)
