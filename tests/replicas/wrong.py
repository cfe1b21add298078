"""Wrong set-ups, with which the days have to fail."""

from tests.lab.machine import Machine
from tests.lab.run import Fault
from tests.replicas.book import primary

# Tables as they would be without terms: whoever comes may write, as many as there are, and each
# counts for itself. The gateways that run go on with them; one that is started refuses them.
WITHOUT_TERMS = """
SET search_path TO {schema};
DROP TRIGGER one_term ON entry;
DROP TRIGGER one_term ON connection;
CREATE OR REPLACE FUNCTION speak(mine INTEGER) RETURNS VOID LANGUAGE SQL AS '';
CREATE OR REPLACE FUNCTION take_over(name TEXT)
    RETURNS TABLE (new_term INTEGER, old_backend INTEGER, old_began TIMESTAMPTZ)
    LANGUAGE SQL AS $$ SELECT 1, 0, now() $$;
ALTER TABLE entry DROP CONSTRAINT entry_pkey;
ALTER TABLE connection DROP CONSTRAINT connection_pkey;
ALTER TABLE sent DROP CONSTRAINT sent_pkey;
"""

SET_UPS = ("local", "terms")


def synchronous_of(wrong: str) -> str:
    """What the gateways ask of PostgreSQL's commits."""
    return "local" if wrong == "local" else "on"


def spoil(machine: Machine, schema: str, wrong: str) -> None:
    """What of a wrong set-up is in the database."""
    if wrong == "terms":
        done = primary(machine).asked(WITHOUT_TERMS.format(schema=schema), limit=30)
        if done is None:
            raise Fault("the terms of %s can't be taken out" % schema)
