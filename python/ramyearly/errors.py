"""What stops the command, and what stops its work on one site."""


class Trouble(Exception):
    """What stopped the command, as one line."""


class SiteError(Exception):
    """Why a site is refused, as one line that names the file."""


class TableError(SiteError):
    """What is wrong with a table's text or bytes, as one line that names its file."""
