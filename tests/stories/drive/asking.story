# When a driver asks again what a client asked, and when it reads no more of it, by stories.

story what_waits_is_asked_again_once_where_its_note_may_be_lost
# A client that registered at node 1, by the second note of the node.
0 node 1 leads
0 node 1 takes client 1
0 client 1 sends PASS pw\r\nNICK n\r\nUSER u 0 * :r\r\n
forget
10 node 1 leads done=1 lost=1
orders
20 node 1 leads done=2 lost=2
orders ask@1
30 node 1 leads done=3 lost=2
orders
1500 tick
orders beat@1
9000 tick
orders

story what_waits_is_asked_each_timeout_once_a_turn_was_refused
# A client that registered at node 1, by the second note of the node.
0 node 1 leads
0 node 1 takes client 1
0 client 1 sends PASS pw\r\nNICK n\r\nUSER u 0 * :r\r\n
forget
5 node 1 leads done=1
10 node 1 leads done=1 refused
999 tick
orders beat@1
1000 tick
orders ask@1
1999 tick
orders
2000 tick
orders ask@1

story a_client_is_not_read_while_256_notes_of_its_node_wait_or_48_requests_of_it
# A client that registered at node 1, by the second note of the node.
0 node 1 leads
0 node 1 takes client 1
0 client 1 sends PASS pw\r\nNICK n\r\nUSER u 0 * :r\r\n
forget
0 node 1 takes client 2
0 client 2 sends PASS pw\r\nNICK n\r\nUSER u 0 * :r\r\n
0 node 1 takes client 3
0 client 3 sends PASS pw\r\nNICK n\r\nUSER u 0 * :r\r\n
0 node 1 takes client 4
0 client 4 sends PASS pw\r\nNICK n\r\nUSER u 0 * :r\r\n
0 node 1 takes client 5
0 client 5 sends PASS pw\r\nNICK n\r\nUSER u 0 * :r\r\n
0 node 1 takes client 6
0 client 6 sends PASS pw\r\nNICK n\r\nUSER u 0 * :r\r\n
1 client 1 repeats 41 PRIVMSG #c :x\r\n
1 client 2 repeats 41 PRIVMSG #c :x\r\n
1 client 3 repeats 41 PRIVMSG #c :x\r\n
1 client 4 repeats 41 PRIVMSG #c :x\r\n
1 client 5 repeats 41 PRIVMSG #c :x\r\n
1 client 6 repeats 41 PRIVMSG #c :x\r\n
1 client 1 repeats 2 PRIVMSG #c :x\r\n
client 1 is read
1 client 1 repeats 1 PRIVMSG #c :x\r\n
client 1 is not read
client 2 is not read
2 node 1 leads done=256
client 1 is read
3 client 1 repeats 2 PRIVMSG #c :x\r\n
client 1 is read
3 client 1 repeats 1 PRIVMSG #c :x\r\n
client 1 is not read
client 2 is read
