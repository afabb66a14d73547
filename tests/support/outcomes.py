"""How a case ends other than well."""


class Wrong(Exception):
    """What a case saw is not what was wanted."""


class Skipped(Exception):
    """A case that this machine cannot run, with the reason."""
