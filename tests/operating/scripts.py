"""Puts the packages' scripts together as debhelper does."""

from tests.harness.options import ROOT

FOLDER = ROOT / "debian"


def script_of(package: str, name: str) -> str:
    """A script of a package, such as its `postinst`, without debhelper's own lines."""
    fits, before = (
        (FOLDER / file).read_text() for file in ("service-fits.sh", "gateway-before.sh")
    )
    text = (FOLDER / ("%s.%s" % (package, name))).read_text()
    return text.replace("#SERVICE_FITS#", fits).replace("#GATEWAY_BEFORE#", fits + before)
