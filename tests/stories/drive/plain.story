# What a driver orders, by stories.

story a_node_waits_for_a_leader_50_ms_longer_than_the_one_before
0 node 2 follows
0 ticks 2
forget
1099 tick
orders
1100 tick
orders timeout@2
1100 ticks 2
forget
2199 tick
orders

story a_leader_connects_and_beats_with_one_beat_waiting_at_most
0 node 1 leads
orders news@1 [leads in term 1] news@1 [up, run 1] ask@1 connect
# on news it sends by itself
10 node 1 leads log=1 done=1
199 tick
orders
200 tick
orders beat@1
400 tick
410 node 1 leads log=2 done=1
orders
420 node 1 leads log=2 done=2
orders beat@1
430 node 1 leads log=2 done=3
619 tick
orders
620 tick
orders beat@1

story a_client_registers_within_10_seconds_and_leaves_once
0 node 2 follows
orders news@2 [up, run 1] ask@2
0 node 2 takes client 1
9000 node 2 takes client 2
9000 client 2 sends PASS pw\r\nNICK n\r\nUSER u 0 * :r\r\n
orders write@2 :bouncer.local 001 me :Welcome to the bouncer\r\n news@2 [client 2 attached] ask@2
  write@2 :bouncer.local 422 me :No message of the day\r\n:*status!bouncer@local NOTICE me
  :There is no server; it is tried as soon as a node leads.\r\n
client 1 is not attached
client 2 is attached
10000 tick
# what the second client asked is not asked again
orders write@1 ERROR :you did not register in time\r\n close@1
10001 client 2 leaves
orders close@2 news@2 [client 2 left] ask@2
10002 client 2 leaves
orders

story the_server_opens_a_session_with_its_welcome
0 node 1 leads
orders news@1 [leads in term 1] news@1 [up, run 1] ask@1 connect
5 server connected
orders send NICK me\r\nUSER me 0 * me\r\n
6 server sends :s 001 me :hi\r\nPING t\r\n
orders send PONG t\r\n news@1 [upstream opened] opened@1 heard@1
10 server closed
orders news@1 [upstream closed: the server closed the connection] closed@1
1009 tick
orders beat@1
1010 tick
orders connect

story a_server_that_ends_before_its_welcome_gave_no_session
0 node 1 leads
forget
5 server refused
orders news@1 [upstream not opened: the connection was refused]
1005 tick
1006 server connected
1007 server sends ERROR :wrong password\r\n
forget
1010 server closed
orders news@1 [upstream not opened: the server closed the connection] closed@1
# the beat of 1005 ms waits
3009 tick
orders
3010 tick
orders connect

story word_of_a_run_is_asked_for_until_it_is_applied
0 node 2 follows
orders news@2 [up, run 1] ask@2
10 node 2 follows done=1
20 node 1 leads
orders news@1 [leads in term 1] news@1 [up, run 1] ask@1 connect
30 node 1 leads log=2 done=1
999 tick
orders beat@1
1000 tick
orders ask@1
1010 node 1 leads log=3 done=3
1020 node 1 leads log=3 commit=3 applied=3 done=3
orders
2100 tick
orders beat@1

story a_leader_sends_word_of_a_node_that_is_silent_for_ten_timeouts
0 node 1 leads
orders news@1 [leads in term 1] news@1 [up, run 1] ask@1 connect
0 node 2 follows
orders news@2 [up, run 1] ask@2
400 node 2 takes client 1
0 ticks 19
forget
9999 tick
orders
10000 tick
orders ask@1
10001 tick
orders

story a_client_that_registers_is_told_of_a_nick_that_changed
0 node 1 leads
1 node 1 takes client 1
5 server connected
6 server sends :s 001 me2 :hi\r\n
forget
7 client 1 sends PASS pw\r\nNICK n\r\nUSER u 0 * :r\r\n
orders write@1 :bouncer.local 001 me :Welcome to the bouncer\r\n news@1 [client 1 attached] ask@1
  write@1 :me NICK me2\r\n:bouncer.local 422 me2 :No message of the day\r\n

story a_claim_is_told_again_only_where_it_is_not_in_the_log
0 node 1 follows
forget
10 node 1 leads log=1 claim=1
orders news@1 [leads in term 1] claim@1 connect
10 ticks 8
orders beat@1
5000 node 1 leads log=1 applied=1 claim=1 done=1
orders
5010 node 1 leads log=1 claim=1 done=9
orders beat@1
5020 node 1 leads log=1 applied=1 claim=1 done=9
orders claim@1
