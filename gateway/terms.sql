-- Beside schema.sql, in PostgreSQL alone: which gateway speaks. Several gateways may have the log open. One writes it,
-- in a term of its own, and the others follow. A gateway whose term is over can write nothing there.
--
-- A gateway holds its tables against this text at each start, and the audit does so, too: a function has to be the same up to
-- the comments within it. So whoever changes what is made here gives the tables another form (schema.sql).

-- One row. backend and began are the connection of the gateway that speaks, as pg_stat_activity has them, and seen is
-- when it last said that it is there.
CREATE TABLE speaker (
    one     INTEGER PRIMARY KEY CHECK (one = 1),
    term    INTEGER NOT NULL,
    gateway TEXT NOT NULL,
    backend INTEGER NOT NULL,
    began   TIMESTAMPTZ NOT NULL,
    seen    TIMESTAMPTZ NOT NULL
);
INSERT INTO speaker VALUES (1, 0, 'nobody', 0, '-infinity', '-infinity');

-- Raises the term for a gateway where the one that spoke has gone: its connection is closed, or it has said nothing for
-- five seconds. Gives the new term and the connection of the one before, which has to be ended once this is committed:
-- it can commit nothing any more. Gives no row where the other is there, or may be: then it is to be asked again.
--
-- What was committed before in an older term is seen after this, and is where this is: on two machines, if the server
-- has synchronous standbys.
CREATE FUNCTION take_over(name TEXT) RETURNS TABLE (new_term INTEGER, old_backend INTEGER, old_began TIMESTAMPTZ)
LANGUAGE plpgsql SET lock_timeout TO '1s' AS $$
DECLARE
    was speaker%ROWTYPE;
BEGIN
    SELECT * INTO was FROM speaker;
    IF was.seen > clock_timestamp() - interval '5 seconds' AND EXISTS (
        SELECT FROM pg_stat_activity WHERE pid = was.backend AND backend_start = was.began)
    THEN
        RETURN;
    END IF;
    -- One that hangs in the middle of a transaction has the row locked by its look at it. One whose server is at work, or
    -- waits for a standby, is not ended: it may go on.
    PERFORM pg_terminate_backend(pid, 5000) FROM pg_stat_activity AS other
        WHERE pid = was.backend AND backend_start = was.began AND wait_event = 'ClientRead'
        AND EXISTS (SELECT FROM pg_locks WHERE pg_locks.pid = other.pid AND relation = 'speaker'::regclass);
    UPDATE speaker SET term = was.term + 1, gateway = name, backend = pg_backend_pid(), seen = clock_timestamp(),
        began = (SELECT backend_start FROM pg_stat_activity WHERE pid = pg_backend_pid())
        WHERE speaker.term = was.term AND speaker.seen = was.seen;
    IF FOUND THEN
        RETURN QUERY SELECT was.term + 1, was.backend, was.began;
    END IF;
EXCEPTION WHEN lock_not_available THEN
    -- It may hang by the time that it is looked at again.
    RETURN;
END $$;

-- The last words of each transaction of the gateway that speaks: the term can't be raised between this and the commit.
CREATE FUNCTION speak(mine INTEGER) RETURNS VOID LANGUAGE plpgsql AS $$
BEGIN
    PERFORM FROM speaker WHERE term = mine FOR SHARE;
    IF NOT FOUND THEN
        RAISE 'term % is over: % speaks in term %', mine,
            (SELECT gateway FROM speaker), (SELECT term FROM speaker);
    END IF;
END $$;

-- The same, and says that the gateway is there.
CREATE FUNCTION speak_and_be_seen(mine INTEGER) RETURNS VOID LANGUAGE plpgsql AS $$
BEGIN
    UPDATE speaker SET seen = clock_timestamp() WHERE term = mine;
    PERFORM speak(mine);
END $$;

-- Entries, events of connections and seals of another term than that of now are refused, whoever writes them.
CREATE FUNCTION refuse_other_terms() RETURNS TRIGGER LANGUAGE plpgsql AS $$
BEGIN
    PERFORM speak(term) FROM (SELECT DISTINCT term FROM added) AS terms;
    RETURN NULL;
END $$;
CREATE TRIGGER one_term AFTER INSERT ON entry REFERENCING NEW TABLE AS added
    FOR EACH STATEMENT EXECUTE FUNCTION refuse_other_terms();
CREATE TRIGGER one_term AFTER INSERT ON connection REFERENCING NEW TABLE AS added
    FOR EACH STATEMENT EXECUTE FUNCTION refuse_other_terms();
CREATE TRIGGER one_term AFTER INSERT ON seal REFERENCING NEW TABLE AS added
    FOR EACH STATEMENT EXECUTE FUNCTION refuse_other_terms();
