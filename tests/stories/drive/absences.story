# What a driver orders where a node hangs, too few nodes are up, or clients are to leave, by stories.

story a_client_that_quits_is_closed_five_seconds_later_where_its_leave_is_not_done
# A group of three, whose node 1 leads, with a client at this node.
0 node 1 leads
0 node 2 follows
0 node 3 follows
0 node 1 takes client 1
0 client 1 sends PASS pw\r\nNICK n\r\nUSER u 0 * :r\r\n
forget
10 client 1 sends QUIT\r\n
orders ask@1
client 1 is leaving
20 client 1 sends PRIVMSG #x :late\r\n
30 end
orders
5000 node 2 follows
forget
5009 tick
forget
client 1 is leaving
5010 tick
orders close@1 news@1 [client 1 left]

story clients_of_a_node_that_hangs_are_closed_while_others_go_on
# A group of three, whose node 1 leads, with a client at this node.
0 node 1 leads
0 node 2 follows
0 node 3 follows
0 node 2 takes client 1
0 client 1 sends PASS pw\r\nNICK n\r\nUSER u 0 * :r\r\n
forget
0 ticks 8
4000 node 1 leads
4000 node 3 follows
forget
4999 watch
orders
5000 watch
orders news@2 [does not answer: its clients are closed] write@1 ERROR :node 2 does not answer\r\n
  close@1 news@2 [client 1 left]
node 2 is hanging
5001 node 2 takes nobody
5002 watch
orders
5003 node 2 follows done=1
node 2 is hanging
5004 node 2 takes nobody
5010 node 2 follows run=2 done=2
node 2 is not hanging
5020 node 2 takes client 2

story while_too_few_nodes_are_up_they_are_started_again_every_two_seconds
# A group of three, whose node 1 leads, with a client at this node.
0 node 1 leads
0 node 2 follows
0 node 3 follows
0 node 1 takes client 1
0 client 1 sends PASS pw\r\nNICK n\r\nUSER u 0 * :r\r\n
forget
10 node 2 fails done=1
10 watch
forget
20 node 3 fails done=1
forget
20 watch
orders news@0 [too few nodes are up: nothing is shown or sent until more are]
  write@1 :*status!bouncer@local NOTICE me :Nothing is shown or sent for now: too few nodes are up.\r\n
1020 tick
3020 tick
3020 watch
forget
5019 tick
forget
5020 tick
orders restart@2 restart@3
5100 node 1 leads
5100 node 3 follows
forget
5110 watch
orders news@0 [enough nodes are up again]
  write@1 :*status!bouncer@local NOTICE me :Enough nodes are up again.\r\n
