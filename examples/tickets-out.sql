-- The sales of which tickets are out, by a copy of a site's file: number, event and seats, in the order in which they were made.
--
--     sqlite3 copy.db < examples/tickets-out.sql

SELECT sale.number, sale.event, sale.amount - coalesce(sum(back.amount), 0) AS seats
FROM entries AS sale
LEFT JOIN entries AS back ON back.verb = 'refund' AND back.reply = 'done' AND back.target = sale.number
WHERE sale.verb = 'sell' AND sale.reply = 'done'
GROUP BY sale.pos
-- A refund without an amount gave back all that was left.
HAVING count(back.pos) = count(back.amount) AND seats > 0
ORDER BY sale.pos;
