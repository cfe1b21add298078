-- The tables of the gateway's log of one day: what came, what the venue gave, and what the FIX sessions did. SQLite and
-- PostgreSQL share this text. A reader needs SELECT alone; only the gateway writes.

-- The form of these tables: one row, the same in SQLite and PostgreSQL. A gateway of another form refuses the
-- log, so no day has two. (Forms 1, in SQLite, and 2, in PostgreSQL, had no table connection, and neither
-- received nor connection in entry. Form 3 had neither seal nor checkpoint, and no venue in entry 0. In form 4
-- outgoing had each message of a session as it left, and session two numbers. In forms 4 and 5 a checkpoint named neither
-- the one before nor the day's end, and what is sealed and signed began with `mireseason log 4`. Up to form 5 tables
-- outgoing and session had what each session kept, and its numbers: the gateway read them back.)
CREATE TABLE form (
    number INTEGER NOT NULL
);
INSERT INTO form (number) VALUES (6);

-- What the venue was given, in its order. Places have no gap.
--
-- Place 0 is the day itself. Its line is
--     venue NAME          the venue's name at the gateway, `-` where it is the only one
--     version TEXT        what the venue's program says with --version, or `unknown`
--     program HEX         the SHA-256 of the program's file
--     configuration HEX   the SHA-256 of the configuration
--     reason NAME WORDS   on a day that gives reasons and names of trades, for each name (1 to 40 letters, rising)
--                         the words that a firm is told (1 to 100 bytes of printable ASCII, no vertical bar)
--     %%
-- each with a line feed after it, and then the configuration, byte for byte. Behind `version` there may stand a
-- line `gateway TEXT`: what the gateway that began the day says with --version. (A day of an older gateway has
-- neither, and one that a newer gateway began with them an older one does not go on with.)
--
-- Every other line is a step line of `rfq_venue live`, without its line feed: `hex FIRM TIME HEX` or
-- `clock TIME`; or a note, which the venue ignores, of at most 200 printable bytes:
--     # act TIME NAME(UID) WORDS because="REASON"   what an operator did; the reason may be missing, and other
--                         bytes than printable ASCII, quotation marks and backslashes stand there as \xHH
--     # clock TIME STATE ERROR   STATE is synchronised or unsynchronised, as the kernel has it (adjtimex), and ERROR
--                         its greatest error in microseconds: at each begin of a term, each five minutes, and
--                         when STATE changes
--     # clock TIME set BY        by how many microseconds the clock was set
--     # gateway TIME NAME VERSION  which gateway speaks from now on (`gateway` of [log]), and what it says with --version:
--                         at each start, and where one takes over
-- What an act sets holds from its commit to the end of the day, for whoever writes the log. Fed after the configuration, `%%` and one line `#`, place P is line C + 2 + P of the
-- venue's input, C being the lines of the configuration.
--
-- The chain: hash is the SHA-256 of the text
--     BEFORE PLACE TERM MOMENT RECEIVED FIRM NUMBER CONNECTION LENGTH
-- (one space between, a line feed after; BEFORE in small hexadecimal digits, FIRM, NUMBER and CONNECTION `-`
-- where there is none, LENGTH the bytes of line) and the bytes of line. before is the hash of the place
-- before, and 32 zero bytes at place 0. So it covers every column, and which connection a message came on;
-- who that was stands in connection, whose rows have a chain of their own.
CREATE TABLE entry (
    place      INTEGER PRIMARY KEY,
    term       INTEGER NOT NULL, -- of the gateway that wrote it (terms.sql); 0 in SQLite, where only one may
    moment     TEXT    NOT NULL, -- at which the venue takes it, HH:MM:SS.sss in UTC, never falling
    received   TEXT    NOT NULL, -- when the last byte of its message was read, HH:MM:SS.ssssss in UTC, and never in
                                 -- a later millisecond than moment. Of one connection it never falls: where the
                                 -- machine's clock is set back it stands. From one connection to another it may.
                                 -- Where no message came: when the line was made, in the millisecond of moment
    firm       TEXT,             -- whose message it is; NULL at place 0, in a clock line and in a note
    number     INTEGER,          -- MsgSeqNum (34) of the session; NULL where no message came: at place 0, in
                                 -- a clock line, in a note, and in a cancel for a dealer that is gone
    connection INTEGER,          -- the number of the connection that the message came on; NULL where number is
    line       BYTEA   NOT NULL,
    before     BYTEA   NOT NULL,
    hash       BYTEA   NOT NULL
);

-- Who was at the door: what happened to connections, in its order. Places begin at 1 and have no gap.
--
-- event is
--     logon     a Logon of firm was accepted: from now on the connection has a number, and the firm's messages
--               come on it. It stands here before the first entry that names it
--     end       of a connection that has a number. A firm has one connection at a time: it ends before the
--               firm's next one begins, and at the latest when a gateway starts again
--     refused   a Logon in the name of firm was refused, and its connection ended
--     stranger  a connection ended without a Logon in a name that this venue has. In the log of each venue
--     left out  left_out rows with this why were left out, and none has come for a while
-- Of refused and stranger at most ten rows a minute are put here of each why, whoever connects, however often.
--
-- The chain: hash is the SHA-256 of the text
--     BEFORE PLACE TERM MOMENT ENTRY NUMBER FIRM LEFT_OUT EVENT ADDRESS CERTIFICATE WHY
-- (one space between, a line feed after; BEFORE in small hexadecimal digits, `-` where there is none; of event,
-- address, certificate and why the length in bytes) and the bytes of event, address, certificate and why.
-- before is the hash of the place before, and 32 zero bytes at place 1.
CREATE TABLE connection (
    place       INTEGER PRIMARY KEY,
    term        INTEGER NOT NULL, -- as in entry
    moment      TEXT    NOT NULL, -- HH:MM:SS.ssssss in UTC, never falling
    event       TEXT    NOT NULL,
    entry       INTEGER NOT NULL, -- the last place of entry then: what came on a connection stands behind that
                                  -- of its Logon, up to that of its end
    number      INTEGER,          -- of the connection, rising with each Logon; NULL of one whose Logon was not accepted
    firm        TEXT,             -- NULL in stranger and left out
    address     TEXT    NOT NULL, -- ADDRESS:PORT of the peer
    certificate TEXT,             -- the common name of the client's certificate; NULL without one
    why         TEXT,             -- of its end, or of the refusal: never what a stranger has said; NULL in logon
    left_out    INTEGER NOT NULL, -- of refused and stranger, how many with this why were left out before it
    before      BYTEA   NOT NULL,
    hash        BYTEA   NOT NULL
);

-- A copy for readers: no gateway reads this table, and no seal covers it. Notes have hashes of what it says.
--
-- What the venue gave for a firm: its frame as the venue wrote it, SOH as the byte 0x01. number is the
-- venue's MsgSeqNum (34) to that firm, place that of the entry which it answers. On a day with reasons told is the field
-- that tells the firm what the venue notes beside the message: Text (58), the words of the reason, or TradeID (1003), the
-- name of the trade. From these columns, and from the firm's session notes, follows each message of the venue as it left
-- (docs/RECOVERY.md): its number, and all that stands behind the session's header. A row comes in one transaction with the
-- note that names it, or with an earlier one.
CREATE TABLE sent (
    firm   TEXT    NOT NULL,
    number INTEGER NOT NULL,
    place  INTEGER NOT NULL,
    bytes  BYTEA   NOT NULL,
    told   TEXT,             -- TAG=VALUE; NULL where nothing is noted
    PRIMARY KEY (firm, number)
);

-- What no one can make who may write here and has no key of a gateway.
--
-- Each transaction that puts rows into entry or connection, or has session notes, puts one row here. Numbers begin at 1
-- and have no gap. place is the last place of entry then, event that of connection (0 where it has none). notes are the
-- session notes of the transaction, a line feed behind each (docs/RECOVERY.md has their form): what sessions did that no
-- entry says. hash is the running hash of all session notes up to these. mac is the HMAC-SHA-256, under the secret of
-- the log's gateways, of the text
--     mireseason log 6
--     venue NAME          as in entry 0
--     day YYYYMMDD        of its configuration
--     configuration HEX   the SHA-256 of that
--     term TERM
--     entry PLACE HEX     place, and the hash that the entry there has
--     connection PLACE HEX   event, and the hash that the row there has; 64 zeros where event is 0
--     seal NUMBER HEX     number and hash of this row
-- (small hexadecimal digits, a line feed after each line). The hashes are those of the chains, so a seal covers
-- all that stands in these two tables and in notes up to it. The last seal is that of the last entry and the last row.
--
-- Before the day opens a Logout uses up a number of its session, and there is no entry: place is -1 then, event 0, and
-- the text has 64 zeros in place of both hashes and of the configuration's.
CREATE TABLE seal (
    number INTEGER PRIMARY KEY,
    term   INTEGER NOT NULL, -- as in entry: of the gateway that sealed
    place  INTEGER NOT NULL,
    event  INTEGER NOT NULL,
    notes  BYTEA   NOT NULL,
    hash   BYTEA   NOT NULL,
    mac    BYTEA   NOT NULL
);

-- The same for readers who have no secret. Less than a second after an entry, at each change of term and when it ends
-- the gateway that speaks signs where its log stands. Numbers begin at 1 and have no gap. seal is the number of the last
-- seal then. signature is the Ed25519 signature, by that gateway's own key, of the text above, whose seal is that one,
-- with three more lines
--     checkpoint NUMBER
--     before HEX          the signature of the checkpoint before; 128 zeros where there is none
--     end yes|no          yes: the day's log ends there. One that is opened again goes on behind it, and gets another
-- A row here may come later than the entries behind it. What the last one does not cover, nobody has signed yet. The
-- gateway also keeps the last one outside of the database, once it is here.
CREATE TABLE checkpoint (
    number    INTEGER PRIMARY KEY,
    term      INTEGER NOT NULL,
    place     INTEGER NOT NULL,
    event     INTEGER NOT NULL,
    seal      INTEGER NOT NULL,
    is_end    INTEGER NOT NULL, -- 1: yes
    signature BYTEA   NOT NULL
);
