"""Names the pages, so that a module can link to a page without the module that writes it."""

ENTRIES_A_PAGE = 1000  # of a firm
ROWS_A_PAGE = 500  # of a list


def page_name(firm: str, place: int) -> str:
    """The page of a firm that has what an entry is about."""
    return "firms/%s-%d.html" % (firm, place // ENTRIES_A_PAGE + 1)


def file_name(key: int) -> str:
    """The page of a request."""
    return "%04d.html" % (key + 1)
