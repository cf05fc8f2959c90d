-- Splits and shares of a whole run, from the parts that `maglev simulate --json --list --node N` printed. `events` is a table of
-- their objects of the type `event`, of all nodes: DuckDB makes it by
--   CREATE VIEW events AS SELECT * FROM read_json('part-*.jsonl', format = 'newline_delimited') WHERE type = 'event';
-- Spark by spark.read.json("part-*.jsonl").filter("type = 'event'").createOrReplaceTempView("events"). SQLite's program, 3.38 or
-- newer, makes it of lines, with an .import for each part:
--   .mode ascii
--   .separator "\037" "\n"
--   CREATE TABLE lines (line);
--   .import part-0.jsonl lines
--   CREATE TABLE events AS SELECT line->>'kind' AS kind, line->>'outcome' AS outcome, line->>'node' AS node,
--     line->>'record' AS record, line->>'worker' AS worker, line->>'version' AS version, line->>'flow' AS flow,
--     line->>'backend' AS backend, line->>'address' AS address, line->>'chosen' AS chosen, line->>'bytes' AS bytes
--     FROM lines WHERE line->>'type' = 'event';
--   .mode list
-- A record is delivered once: no step of the scenario is `again`, `hold` or `drain`.

-- Splits: each two sends of one flow to different servers, with none of that flow between them, in the order of the later one.
WITH sends AS (
    SELECT flow, record, node, worker, backend, address, chosen,
        LAG(record) OVER (PARTITION BY flow ORDER BY record) AS first_record,
        LAG(node) OVER (PARTITION BY flow ORDER BY record) AS first_node,
        LAG(worker) OVER (PARTITION BY flow ORDER BY record) AS first_worker,
        LAG(backend) OVER (PARTITION BY flow ORDER BY record) AS first_backend,
        LAG(address) OVER (PARTITION BY flow ORDER BY record) AS first_address,
        LAG(chosen) OVER (PARTITION BY flow ORDER BY record) AS first_chosen
    FROM events WHERE outcome = 'forward'
)
SELECT flow, first_record, first_node, first_worker, first_chosen, first_backend, first_address,
    record, node, worker, chosen, backend, address
FROM sends WHERE first_backend <> backend OR first_address <> address
ORDER BY record;

-- Shares: what each backend got under each version, over all nodes.
SELECT served.version, served.backend, served.address, COUNT(*) AS packets, SUM(came.bytes) AS bytes, COUNT(DISTINCT served.flow) AS flows
FROM events AS served JOIN events AS came ON came.record = served.record AND came.node = served.node AND came.kind = 'arrive'
WHERE served.outcome = 'forward'
GROUP BY served.version, served.backend, served.address
ORDER BY served.version, served.backend;
