"""`xqs node`: servers that give the same answers, because they follow one replicated log of stores
and drops.

`batches`, `seen`, `sums`, `agreement`, `trials` and `state` only compute. `snapshots`, `store_file`
and `program` work on files and processes. `amqp` and `amqp_link` alone speak to the engine of the
log; the other modules use the protocol in `log`. `feed` gives a `follower` the messages after its
place, even when brokers fail, within the time `limits`; `aside` lets a halted one go on. `node` has
clients, `reads`, the `outbox` and the `watches`. `status`, `health`, `control` and `operating` are
for operators, and `ending` ends a process.
"""
