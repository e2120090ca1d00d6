"""A model of the controller, written from document 01 as 02's orders 1, 4, 6 and 7 read it (and docs/DECISIONS.md where these are silent),
not from the code.

A module a subject, each of them using only those above it:

    answers      the numbers a call answers, and an answer
    registers    registers, fields and bits
    tokens       tokens and plans
    descriptors  descriptors, page slots, heads, links
    state        what a controller keeps, and the rows that it is lent
    ranges       what every call asks first
    opening      opening a controller
    schedule     linking and unlinking heads, the doorbell, the boundary
    endpoints    addresses; open, close, set address, set packet size, clear-halt
    requests     submit, writeback
    collection   cancel, collect
    interrupts   acknowledge, drain, rearm, enable, disable
    bring_up     bring-up
    root_hub     the root ports: scan, port power
    records      a log's records
    calls        any call by its number
    words        the state in words: what it stands for, its ranges, any call on it
    blocks       a log's blocks: what the calls did, as lines
    sheets       job sheets and their listings

Three uses stand over it: logs (log_model.py, log_cases.py), calls on any words (state_records.py, state_cases.py,
state_values.py), sheets (sheet.py, sheet_cases.py). leaf_values.py takes the words that are computed alone from it.
compare_faults.py plants faults in it."""
