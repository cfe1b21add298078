-- Says who may do what in the database of the logs, and makes a day's tables. Its superuser runs it in that database
-- when it is new, and again with each version of the gateway whose tables have another form.
-- configure.py replaces the words between two @.

-- The owner of all tables: no process connects as it.
DO $$ BEGIN
    IF NOT EXISTS (SELECT FROM pg_roles WHERE rolname = 'log_owner') THEN
        CREATE ROLE log_owner NOLOGIN;
    END IF;
    -- It makes the tables of days to come, copies those that are over, and removes old ones; without a password it is let in
    -- nowhere.
    IF NOT EXISTS (SELECT FROM pg_roles WHERE rolname = 'keeper') THEN
        CREATE ROLE keeper LOGIN;
    END IF;
END $$;
DO $$ BEGIN
    EXECUTE format('ALTER DATABASE %I OWNER TO log_owner', current_database());
    EXECUTE format('REVOKE ALL ON DATABASE %I FROM PUBLIC, gateway, reader, keeper', current_database());
    EXECUTE format('GRANT CONNECT ON DATABASE %I TO gateway, reader, keeper', current_database());
END $$;

-- A reader reads, and nobody waits for it for long. The timeouts it may set otherwise, for a session; the keeper, a member of the
-- role, ends what takes longer. What it writes of temporary files it may not: a superuser's setting, for each of its processes.
-- It has no password: a host for readers lets it in by a certificate, and no other host does.
ALTER ROLE reader CONNECTION LIMIT 5 PASSWORD NULL;
ALTER ROLE reader SET temp_file_limit = '100MB';
GRANT reader TO keeper;
ALTER ROLE reader SET default_transaction_read_only = on;
ALTER ROLE reader SET statement_timeout = '10min';
ALTER ROLE reader SET lock_timeout = '5s';
ALTER ROLE reader SET idle_in_transaction_session_timeout = '10min';
ALTER ROLE gateway CONNECTION LIMIT 50;
ALTER ROLE gateway SET lock_timeout = '10s';
ALTER ROLE keeper CONNECTION LIMIT 5;
ALTER ROLE keeper SET lock_timeout = '5s';
ALTER ROLE keeper SET idle_in_transaction_session_timeout = '10min';

-- What PostgreSQL lets everybody do that no role here needs: large objects, words in the WAL, locks by a number, which whoever
-- holds one could keep others waiting with, numbers of transactions, of which there are only so many before the server has to
-- be vacuumed, and notices, which stay on disk until all that listen have read them. (NOTIFY itself can't be taken away: a
-- standby takes none. On the primary it uses up numbers of transactions, and 8 GB of the disk if a session listens and waits.)
DO $$
DECLARE
    one REGPROCEDURE;
BEGIN
    FOR one IN SELECT oid FROM pg_proc WHERE pronamespace = 'pg_catalog'::regnamespace
        AND (proname ~ '^(lo_|lo(read|write)$)' OR proname IN ('pg_logical_emit_message', 'pg_export_snapshot', 'pg_notify', 'pg_current_xact_id', 'txid_current')
             OR proname ~ '^pg_(try_)?advisory_')
    LOOP
        EXECUTE format('REVOKE ALL ON FUNCTION %s FROM PUBLIC', one);
    END LOOP;
END $$;
REVOKE ALL ON SCHEMA public FROM PUBLIC;

CREATE SCHEMA IF NOT EXISTS mireseason AUTHORIZATION log_owner;
GRANT USAGE ON SCHEMA mireseason TO gateway, keeper;

-- Makes the schema of a day with its tables, which belong to the owner, and says what the others may: a gateway puts rows
-- there, and changes who speaks; a reader and the keeper read. Two gateways that begin at once: the second waits for the
-- first by the schema's name, and fails then. No lock of others holds this up: only the owner may make the name.
CREATE OR REPLACE FUNCTION mireseason.make_log(name TEXT) RETURNS VOID
LANGUAGE plpgsql SECURITY DEFINER SET search_path = pg_catalog, pg_temp AS $make_log$
BEGIN
    IF name !~ '^[a-z][a-z0-9_]{0,50}_[0-9]{8}$' THEN
        RAISE 'no log is called %', name;
    END IF;
    EXECUTE format('CREATE SCHEMA %I', name);
    EXECUTE format('SET LOCAL search_path TO %I, pg_temp', name);
    EXECUTE $tables$@SCHEMA_SQL@$tables$;
    EXECUTE $tables$@TERMS_SQL@$tables$;
    EXECUTE format('GRANT USAGE ON SCHEMA %I TO gateway, reader, keeper', name);
    EXECUTE format('GRANT SELECT ON ALL TABLES IN SCHEMA %I TO gateway, reader, keeper', name);
    GRANT INSERT ON entry, connection, sent, seal, checkpoint TO gateway;
    GRANT UPDATE ON speaker TO gateway;
END $make_log$;
ALTER FUNCTION mireseason.make_log(TEXT) OWNER TO log_owner;
REVOKE ALL ON FUNCTION mireseason.make_log(TEXT) FROM PUBLIC;
GRANT EXECUTE ON FUNCTION mireseason.make_log(TEXT) TO gateway, keeper;

-- Removes a day that is over, by the server's own clock. Where somebody reads it, it fails within five seconds.
CREATE OR REPLACE FUNCTION mireseason.remove_log(name TEXT) RETURNS VOID
LANGUAGE plpgsql SECURITY DEFINER SET search_path = pg_catalog, pg_temp SET lock_timeout = '5s' AS $remove_log$
BEGIN
    IF name !~ '^[a-z][a-z0-9_]{0,50}_[0-9]{8}$' THEN
        RAISE 'no log is called %', name;
    END IF;
    IF right(name, 8) >= to_char(clock_timestamp() AT TIME ZONE 'UTC', 'YYYYMMDD') THEN
        RAISE 'the day of % is not over', name;
    END IF;
    EXECUTE format('DROP SCHEMA %I CASCADE', name);
END $remove_log$;
ALTER FUNCTION mireseason.remove_log(TEXT) OWNER TO log_owner;
REVOKE ALL ON FUNCTION mireseason.remove_log(TEXT) FROM PUBLIC;
GRANT EXECUTE ON FUNCTION mireseason.remove_log(TEXT) TO keeper;

-- Days that were there before. The keeper reads them; and tables that were made ahead for a day that has not begun go: those of
-- this version are made in their place.
DO $$
DECLARE
    log NAME;
    has_begun BOOLEAN;
BEGIN
    FOR log IN SELECT nspname FROM pg_namespace
        WHERE nspowner = 'log_owner'::regrole AND nspname ~ '^[a-z][a-z0-9_]{0,50}_[0-9]{8}$'
    LOOP
        EXECUTE format('SELECT EXISTS (SELECT FROM %I.entry)', log) INTO has_begun;
        IF has_begun THEN
            EXECUTE format('GRANT USAGE ON SCHEMA %I TO keeper', log);
            EXECUTE format('GRANT SELECT ON ALL TABLES IN SCHEMA %I TO keeper', log);
        ELSE
            EXECUTE format('DROP SCHEMA %I CASCADE', log);
        END IF;
    END LOOP;
END $$;
