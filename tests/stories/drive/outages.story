# What a driver orders where a node goes down, by stories.

story clients_of_a_node_that_is_down_are_told_and_word_of_its_run_goes_round_at_once
0 node 1 leads
0 node 2 follows
0 node 2 takes client 1
0 node 1 takes client 2
0 client 1 sends PASS pw\r\nNICK n\r\nUSER u 0 * :r\r\n
forget
5000 node 2 fails done=1
orders news@2 [down: its store failed] write@1 ERROR :node 2 is down\r\n close@1
  news@2 [client 1 left]
5001 tick
orders beat@1 ask@1
5002 node 2 takes nobody
orders news@2 [client turned away: the node is down]
5003 node 2 takes nobody
5999 tick
orders
6000 tick
orders restart@2
6010 node 2 follows run=2 done=3
orders news@2 [up, run 2] ask@2
6020 node 2 takes client 3
orders

story a_node_that_was_up_for_a_minute_waits_as_at_first
0 node 2 follows
10 node 2 fails
20 node 2 follows run=2
30 node 2 fails run=2
forget
2029 tick
orders
2030 tick
orders restart@2
2040 node 2 follows run=3
62040 node 2 fails run=3
forget
63039 tick
orders
63040 tick
orders restart@2
