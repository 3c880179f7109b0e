# What a driver orders of nodes that are gone, have much to do, or lag behind, by stories.

story a_node_that_lives_on_in_a_run_that_is_gone_is_started_again
# Word that the runs of node 2 below 2 are gone is applied, at 10,012 ms; a client of the first run is
# connected to it.
0 node 1 leads
0 node 2 follows
400 node 2 takes client 1
forget
0 ticks 19
forget
10000 tick
orders ask@1
10010 node 1 leads done=1
10011 node 1 leads log=1 commit=1 applied=1 done=2
orders beat@1
10012 node 1 leads log=2 commit=2 applied=2 done=3
orders
10020 node 2 follows
orders restart@2
10030 node 2 follows done=1
10040 node 2 follows done=2
orders
10050 node 2 follows run=2 done=3
orders close@1 ask@2
10060 node 2 follows run=2 done=4
orders

story nothing_is_read_for_a_node_while_256_of_its_notes_wait
# A session of node 1, of which 255 notes are not done, and client 1 at this node and client 2 at node 2;
# the last line that came was the last one that may.
0 node 1 leads
0 node 2 follows
0 node 1 takes client 1
0 node 2 takes client 2
0 server connected
# the node was asked, is told of the session, and of its first line
0 server sends :s 001 me :hi\r\n
0 server repeats 252 :a!b@c NOTICE me :x\r\n
server is read
client 1 is read
0 server sends :a!b@c NOTICE me :x\r\n
server is not read
client 1 is not read
client 2 is read
client 3 is read
10 node 1 leads
server is not read
10 node 1 leads done=1
server is read
client 1 is read
# a request that waits for a leader is not done
10 node 1 leads done=1 waiting=1
server is not read

story no_node_was_silent_while_the_driver_did_not_run
0 node 1 leads
0 node 2 follows
forget
100 tick
19999 node 2 takes client 1
20000 tick
orders beat@1
# 100 ms and half a timeout count
20499 tick
orders
20500 tick
orders timeout@2
20500 ticks 17
forget
29399 tick
orders timeout@2
29400 tick
orders ask@1

story a_node_whose_term_rises_waits_anew_for_a_leader_once
0 node 2 follows
0 ticks 2
1050 node 2 follows term=2
1050 ticks 1
forget
2000 tick
2000 node 2 follows term=3
2149 tick
orders
2150 tick
orders timeout@2
