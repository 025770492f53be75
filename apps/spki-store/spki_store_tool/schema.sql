-- A store of access-list entries. `spki-store init` runs this once, in one transaction, with the name of the schema, in quotes, in place of @SCHEMA@.
-- The roles @SCHEMA@_reader, @SCHEMA@_writer, @SCHEMA@_adder and @SCHEMA@_keeper cannot log in: grant them to accounts.
CREATE SCHEMA @SCHEMA@;

-- What an entry is found by: the digest of its subject's hash, or the SHA-256 digest of its subject's key. The text must be one list in canonical
-- form that begins with `entry` and a subject, and nothing follows it. A text whose beginning, parentheses or lengths are wrong is an error.
-- `spki-store check` says whether the library reads it as an entry. This function calls those of the system, and none of the same name that an
-- account has made. Octets are compared by their numbers in ASCII: 40 is `(`, 41 `)`, 91 `[`, 93 `]`, 58 `:`, and 48 to 57 are the digits.
CREATE FUNCTION @SCHEMA@.principal_of(text bytea) RETURNS bytea LANGUAGE plpgsql IMMUTABLE STRICT PARALLEL SAFE
SET search_path = pg_catalog, pg_temp AS $$
DECLARE
    -- A copy: the text of a row may be compressed, and would be unpacked for each octet that is read.
    entry CONSTANT bytea := text || ''::bytea;
    most CONSTANT integer := octet_length(entry);
    is_name CONSTANT boolean := substring(entry FROM 9 FOR 7) = '(4:name';
    -- The offset of the principal, counted from 0 as `at`, and how many lists are open around it.
    principal_at CONSTANT integer := CASE WHEN is_name THEN 15 ELSE 8 END;
    lists_around CONSTANT integer := CASE WHEN is_name THEN 2 ELSE 1 END;
    is_hash CONSTANT boolean := substring(entry FROM principal_at + 1 FOR 7) = '(4:hash';
    at integer := 0;
    depth integer := 0;
    -- The strings of the hash so far: `hash`, the algorithm, the digest. One in brackets, a display hint, does not count.
    strings integer := 0;
    is_hint boolean := false;
    length integer;
    octet integer;
    -- The result, as soon as it is known.
    found bytea;
BEGIN
    IF substring(entry FROM 1 FOR 8) <> '(5:entry' OR NOT (is_hash OR substring(entry FROM principal_at + 1 FOR 14) = '(10:public-key') THEN
        RAISE check_violation USING MESSAGE = 'the text is no entry in canonical form for a key, a hash or a name';
    END IF;
    WHILE at < most LOOP
        octet := get_byte(entry, at);
        IF octet = 40 THEN
            depth := depth + 1;
        ELSIF octet = 41 THEN
            depth := depth - 1;
            IF depth = lists_around AND found IS NULL AND at > principal_at THEN
                IF is_hash THEN
                    RAISE check_violation USING MESSAGE = 'the hash has no digest';
                END IF;
                found := sha256(substring(entry FROM principal_at + 1 FOR at - principal_at + 1));
            END IF;
            EXIT WHEN depth = 0;
        ELSIF octet = 91 OR octet = 93 THEN
            is_hint := octet = 91;
        ELSE
            -- A string: its length in decimal digits, a colon, its octets. No text is longer than 1048576.
            length := 0;
            WHILE octet <> 58 LOOP
                IF octet < 48 OR octet > 57 OR length > 1048576 THEN
                    RAISE check_violation USING MESSAGE = 'the text is not in canonical form';
                END IF;
                length := 10 * length + octet - 48;
                at := at + 1;
                octet := get_byte(entry, at);
            END LOOP;
            IF is_hash AND found IS NULL AND at > principal_at AND NOT is_hint THEN
                strings := strings + 1;
                IF strings = 3 THEN
                    found := substring(entry FROM at + 2 FOR length);
                END IF;
            END IF;
            at := at + length;
        END IF;
        at := at + 1;
    END LOOP;
    IF depth <> 0 OR at <> most - 1 THEN
        RAISE check_violation USING MESSAGE = 'the text is not one list';
    END IF;
    RETURN found;
END $$;

CREATE TABLE @SCHEMA@.entries (
    number bigint GENERATED ALWAYS AS IDENTITY PRIMARY KEY,
    principal bytea NOT NULL GENERATED ALWAYS AS (@SCHEMA@.principal_of(text)) STORED CHECK (octet_length(principal) IN (20, 32, 64)),
    who text NOT NULL DEFAULT session_user,
    text bytea NOT NULL CHECK (octet_length(text) <= 1048576)
);
-- One index by the length of the digest: those by SHA-1 and SHA-512 are small where few entries are for such hashes, and so cost no read of a disk.
CREATE INDEX entries_by_sha1 ON @SCHEMA@.entries (principal, number) WHERE octet_length(principal) = 20;
CREATE INDEX entries_by_sha256 ON @SCHEMA@.entries (principal, number) WHERE octet_length(principal) = 32;
CREATE INDEX entries_by_sha512 ON @SCHEMA@.entries (principal, number) WHERE octet_length(principal) = 64;

-- The certificates that have ended early, by their SHA-256 digests. They stay.
CREATE TABLE @SCHEMA@.ended (certificate bytea PRIMARY KEY CHECK (octet_length(certificate) = 32), remark text NOT NULL DEFAULT '');

-- The certificates that clients left with daemons, by the SHA-256 digests of their keys. They give nothing by themselves. `named` says that a list of the
-- daemon named their first issuer.
CREATE TABLE @SCHEMA@.chains (
    key bytea NOT NULL CHECK (octet_length(key) = 32),
    digest bytea NOT NULL GENERATED ALWAYS AS (sha256(text)) STORED,
    until timestamptz NOT NULL,
    text bytea NOT NULL CHECK (octet_length(text) <= 8192),
    named boolean NOT NULL DEFAULT false,
    PRIMARY KEY (key, digest)
);
CREATE INDEX chains_by_end ON @SCHEMA@.chains (until);

-- Who changed what. `digest` is that of the entry's principal or of the ended certificate. The text of a removed entry is kept here.
CREATE TABLE @SCHEMA@.changes (
    number bigint PRIMARY KEY,
    moment timestamptz NOT NULL,
    who text NOT NULL,
    what text NOT NULL CHECK (what IN ('add', 'remove', 'end')),
    entry bigint,
    digest bytea NOT NULL,
    text bytea
);

-- The number of the last change. A change gets its number by an update of this row, and so waits for the end of each transaction that has changed
-- something: no change with a lower number appears after one with a higher number.
CREATE TABLE @SCHEMA@.state (one boolean PRIMARY KEY DEFAULT true CHECK (one), version integer NOT NULL, changes bigint NOT NULL)
    WITH (fillfactor = 10);
INSERT INTO @SCHEMA@.state (version, changes) VALUES (2, 0);

-- `spki-store beat` increases this number each second. It also notes how many seconds a change has waited for somebody who holds it up, or 0, who that
-- is, and how many of them were ended in all.
CREATE TABLE @SCHEMA@.heartbeat (
    one boolean PRIMARY KEY DEFAULT true CHECK (one),
    number bigint NOT NULL,
    moment timestamptz NOT NULL,
    waits integer NOT NULL DEFAULT 0,
    holder text NOT NULL DEFAULT '',
    ended bigint NOT NULL DEFAULT 0
) WITH (fillfactor = 10);
INSERT INTO @SCHEMA@.heartbeat (number, moment) VALUES (0, clock_timestamp());

-- How far a list was imported, by the SHA-256 digest of its text in canonical form.
CREATE TABLE @SCHEMA@.imports (file bytea PRIMARY KEY, octets bigint NOT NULL, entries bigint NOT NULL, is_done boolean NOT NULL);

-- Writes the rows that a statement has added or removed into `changes`, with the next numbers. The triggers below call it, with these rows as
-- `changed`.
CREATE FUNCTION @SCHEMA@.note_change() RETURNS trigger LANGUAGE plpgsql SECURITY DEFINER SET search_path = pg_catalog, pg_temp AS $$
DECLARE
    changed CONSTANT bigint := (SELECT count(*) FROM changed);
    before bigint;
BEGIN
    IF changed = 0 THEN
        RETURN NULL;
    END IF;
    UPDATE @SCHEMA@.state SET changes = changes + changed RETURNING changes - changed INTO before;
    IF TG_TABLE_NAME = 'ended' THEN
        INSERT INTO @SCHEMA@.changes (number, moment, who, what, digest)
            SELECT before + row_number() OVER (), clock_timestamp(), session_user, 'end', certificate FROM changed;
    ELSIF TG_OP = 'INSERT' THEN
        INSERT INTO @SCHEMA@.changes (number, moment, who, what, entry, digest)
            SELECT before + row_number() OVER (ORDER BY number), clock_timestamp(), session_user, 'add', number, principal FROM changed;
    ELSE
        INSERT INTO @SCHEMA@.changes (number, moment, who, what, entry, digest, text)
            SELECT before + row_number() OVER (ORDER BY number), clock_timestamp(), session_user, 'remove', number, principal, text FROM changed;
    END IF;
    RETURN NULL;
END $$;
CREATE TRIGGER note_added AFTER INSERT ON @SCHEMA@.entries REFERENCING NEW TABLE AS changed
    FOR EACH STATEMENT EXECUTE FUNCTION @SCHEMA@.note_change();
CREATE TRIGGER note_removed AFTER DELETE ON @SCHEMA@.entries REFERENCING OLD TABLE AS changed
    FOR EACH STATEMENT EXECUTE FUNCTION @SCHEMA@.note_change();
CREATE TRIGGER note_ended AFTER INSERT ON @SCHEMA@.ended REFERENCING NEW TABLE AS changed
    FOR EACH STATEMENT EXECUTE FUNCTION @SCHEMA@.note_change();

-- Refuses a statement, whoever runs it: an entry is added or removed, but not changed, and what has ended and the log stay as they are.
CREATE FUNCTION @SCHEMA@.refuse_change() RETURNS trigger LANGUAGE plpgsql SET search_path = pg_catalog, pg_temp AS $$
BEGIN
    RAISE insufficient_privilege USING MESSAGE = format('%s of %s is refused', TG_OP, TG_TABLE_NAME);
END $$;
CREATE TRIGGER refused BEFORE UPDATE OR TRUNCATE ON @SCHEMA@.entries FOR EACH STATEMENT EXECUTE FUNCTION @SCHEMA@.refuse_change();
CREATE TRIGGER refused BEFORE UPDATE OR DELETE OR TRUNCATE ON @SCHEMA@.ended FOR EACH STATEMENT EXECUTE FUNCTION @SCHEMA@.refuse_change();
CREATE TRIGGER refused BEFORE UPDATE OR DELETE OR TRUNCATE ON @SCHEMA@.changes FOR EACH STATEMENT EXECUTE FUNCTION @SCHEMA@.refuse_change();

-- Keeps the certificates of a key until a time, `ends`. `of_key` is the SHA-256 digest of the key, and `shown` the text of the sequence with the
-- certificates. `is_named` says that a list names their first issuer. Returns `kept`; `known` if they are kept already; or `full` if this key has
-- `most_each` such texts, or if it has none and `most_keys` others have some. Texts that have ended are removed. Those that are not named give way to
-- one that is: one of this key, or all of a key that has no others. Only this function adds any, one call after the other.
CREATE FUNCTION @SCHEMA@.keep(of_key bytea, shown bytea, ends timestamptz, most_each integer, most_keys integer, is_named boolean) RETURNS text
LANGUAGE plpgsql SECURITY DEFINER SET search_path = pg_catalog, pg_temp AS $$
DECLARE
    texts_of_key bigint;
BEGIN
    LOCK TABLE @SCHEMA@.chains IN SHARE ROW EXCLUSIVE MODE;
    DELETE FROM @SCHEMA@.chains WHERE until <= clock_timestamp();
    UPDATE @SCHEMA@.chains SET named = named OR is_named WHERE key = of_key AND digest = sha256(shown);
    IF FOUND THEN
        RETURN 'known';
    END IF;
    SELECT count(*) INTO texts_of_key FROM @SCHEMA@.chains WHERE key = of_key;
    IF texts_of_key >= most_each AND is_named THEN
        DELETE FROM @SCHEMA@.chains WHERE key = of_key AND digest = (
            SELECT digest FROM @SCHEMA@.chains WHERE key = of_key AND NOT named ORDER BY until LIMIT 1);
    ELSIF texts_of_key = 0 AND is_named AND (SELECT count(DISTINCT key) FROM @SCHEMA@.chains) >= most_keys THEN
        DELETE FROM @SCHEMA@.chains WHERE key = (
            SELECT key FROM @SCHEMA@.chains GROUP BY key HAVING NOT bool_or(named) ORDER BY min(until) LIMIT 1);
    END IF;
    SELECT count(*) INTO texts_of_key FROM @SCHEMA@.chains WHERE key = of_key;
    IF texts_of_key >= most_each OR texts_of_key = 0 AND (SELECT count(DISTINCT key) FROM @SCHEMA@.chains) >= most_keys THEN
        RETURN 'full';
    END IF;
    INSERT INTO @SCHEMA@.chains (key, until, text, named) VALUES (of_key, ends, shown, is_named);
    RETURN 'kept';
END $$;

-- Who writes may remove any entry, and who adds only those of its own account.
ALTER TABLE @SCHEMA@.entries ENABLE ROW LEVEL SECURITY;
CREATE POLICY seen ON @SCHEMA@.entries FOR SELECT USING (true);
CREATE POLICY added ON @SCHEMA@.entries FOR INSERT TO @SCHEMA@_writer, @SCHEMA@_adder WITH CHECK (true);
CREATE POLICY removed ON @SCHEMA@.entries FOR DELETE TO @SCHEMA@_writer USING (true);
CREATE POLICY removed_again ON @SCHEMA@.entries FOR DELETE TO @SCHEMA@_adder USING (who = session_user);

REVOKE ALL ON ALL FUNCTIONS IN SCHEMA @SCHEMA@ FROM PUBLIC;
GRANT USAGE ON SCHEMA @SCHEMA@ TO @SCHEMA@_reader, @SCHEMA@_writer, @SCHEMA@_adder, @SCHEMA@_keeper;
GRANT SELECT ON @SCHEMA@.entries, @SCHEMA@.ended, @SCHEMA@.state, @SCHEMA@.heartbeat TO @SCHEMA@_reader, @SCHEMA@_writer, @SCHEMA@_adder;
GRANT SELECT (number, moment, what, entry, digest) ON @SCHEMA@.changes TO @SCHEMA@_reader, @SCHEMA@_adder;
GRANT SELECT ON @SCHEMA@.changes TO @SCHEMA@_writer;
GRANT INSERT (text), DELETE ON @SCHEMA@.entries TO @SCHEMA@_writer, @SCHEMA@_adder;
GRANT INSERT (certificate, remark) ON @SCHEMA@.ended TO @SCHEMA@_writer;
-- (who holds changes up is ended by pg_read_all_stats and pg_signal_backend, which are roles of the whole server: a superuser grants them to the account
-- of the heartbeat, and not to each writer)
GRANT UPDATE (number, moment, waits, holder, ended) ON @SCHEMA@.heartbeat TO @SCHEMA@_writer;
GRANT SELECT, INSERT, UPDATE, DELETE ON @SCHEMA@.imports TO @SCHEMA@_writer;
GRANT SELECT, DELETE ON @SCHEMA@.chains TO @SCHEMA@_writer;
GRANT SELECT ON @SCHEMA@.state, @SCHEMA@.chains TO @SCHEMA@_keeper;
GRANT EXECUTE ON FUNCTION @SCHEMA@.keep(bytea, bytea, timestamptz, integer, integer, boolean) TO @SCHEMA@_keeper;
GRANT EXECUTE ON FUNCTION @SCHEMA@.principal_of(bytea) TO @SCHEMA@_reader, @SCHEMA@_writer, @SCHEMA@_adder;
