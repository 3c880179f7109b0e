# How a driver leaves the server when another node comes to lead, and counts what may not have arrived, by stories.

story the_server_is_left_and_connected_to_for_a_leader_of_a_greater_term
0 node 1 leads
5 server connected
6 server sends :s 001 me :hi\r\n
forget
10 node 2 leads term=2
orders news@2 [leads in term 2] news@2 [up, run 1] ask@2 send QUIT\r\n
  news@1 [upstream closed: the node leads no more] closed@1
1009 tick
orders beat@1 beat@2
# the server did not close the connection
1010 tick
orders disconnect
2009 tick
orders
2010 tick
orders connect
# node 1 does not know yet
2020 node 1 leads
orders
2030 server connected
orders send NICK me\r\nUSER me 0 * me\r\n

story a_server_that_closes_a_session_that_is_over_is_connected_to_soon
0 node 1 leads
5 server connected
6 server sends :s 001 me :hi\r\n
forget
10 node 2 leads term=2
orders news@2 [leads in term 2] news@2 [up, run 1] ask@2 send QUIT\r\n
  news@1 [upstream closed: the node leads no more] closed@1
15 server sends ERROR :Closing Link\r\n
20 server closed
orders
1019 tick
orders beat@1 beat@2
1020 tick
orders connect

story nothing_is_said_behind_a_quit_and_it_is_said_once
0 node 1 leads
5 server connected
6 server sends :s 001 me :hi\r\n
forget
10 node 2 leads term=2
orders news@2 [leads in term 2] news@2 [up, run 1] ask@2 send QUIT\r\n
  news@1 [upstream closed: the node leads no more] closed@1
15 node 1 hands PRIVMSG #x :of the old session
15 node 2 hands PRIVMSG #x :of no session
20 node 1 leads
30 node 2 leads term=2
40 server sends PING t\r\n
50 server connected
orders
60 server closed
1059 tick
orders beat@1 beat@2
1060 tick
orders connect

story a_connection_that_does_not_stand_yet_is_closed_at_once
0 node 1 leads
forget
10 node 2 leads term=2
orders news@2 [leads in term 2] news@2 [up, run 1] ask@2 disconnect
  news@1 [upstream not opened: the node leads no more]
1009 tick
orders beat@1 beat@2
1010 tick
orders connect

story lines_that_are_said_count_until_the_server_is_heard
0 node 1 leads
1 server connected
2 server sends :s 001 me :hi\r\n
2 node 1 hands NAMES #x
2 node 1 hands PRIVMSG #x :one
2 node 1 hands PRIVMSG #x :two
unheard 0
# two lines go at once
10 node 1 leads
unheard 2
# and the question, which nobody misses
2010 node 1 leads
unheard 2
2020 server sends :s PONG t\r\n
unheard 0
2020 node 1 hands PRIVMSG #x :three
4010 node 1 leads
unheard 1
# clients are told of it then
4020 server closed
unheard 1

story a_change_of_leader_makes_the_next_wait_no_longer
0 node 1 leads
5 server connected
6 server sends :s 001 me :hi\r\n
10 node 2 leads term=2
20 server closed
1020 tick
1025 server connected
1026 server sends :s 001 me :hi\r\n
1030 node 3 leads term=3
1040 server closed
2039 tick
forget
2040 tick
orders connect

story who_attaches_where_there_is_no_server_is_told_why_and_when_it_is_tried
0 node 1 leads
1 server refused
2 node 1 takes client 1
2 node 1 takes client 2
forget
400 client 1 sends PASS pw\r\nNICK n\r\nUSER u 0 * :r\r\n
orders write@1 :bouncer.local 001 me :Welcome to the bouncer\r\n news@1 [client 1 attached] ask@1
  write@1 :bouncer.local 422 me :No message of the day\r\n:*status!bouncer@local NOTICE me
  :There is no server: the connection was refused; next try in 1 s.\r\n
1001 tick
1002 server connected
1003 server sends :s 001 me :hi\r\n
forget
# a client that attaches later is told nothing of it
1004 client 2 sends PASS pw\r\nNICK n\r\nUSER u 0 * :r\r\n
orders write@2 :bouncer.local 001 me :Welcome to the bouncer\r\n news@1 [client 2 attached] ask@1
  write@2 :bouncer.local 422 me :No message of the day\r\n
