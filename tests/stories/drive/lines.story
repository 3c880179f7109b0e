# Which lines a driver sends to the server, in which order, and when, by stories.

story lines_are_claimed_and_go_at_the_pace
# Node 1 leads, and has a session.
0 node 1 leads
1 server connected
2 server sends :s 001 me :hi\r\n
forget
10 node 1 leads log=1 claim=1
orders claim@1
20 node 1 leads log=1 claim=1
orders
20 node 1 hands PRIVMSG #x :the first
orders
30 node 1 leads log=1 claim=2
orders send PRIVMSG #x :the first\r\n claim@1
30 node 1 hands PRIVMSG #x :the second
40 node 1 leads log=1 claim=3
orders send PRIVMSG #x :the second\r\n
2029 node 1 leads log=1 claim=3
orders beat@1
2030 node 1 leads log=1 claim=3
orders claim@1

story what_is_said_goes_before_questions_that_waited
# Node 1 leads, and has a session.
0 node 1 leads
1 server connected
2 server sends :s 001 me :hi\r\n
forget
2 node 1 hands NAMES #a
2 node 1 hands NAMES #b
2 node 1 hands NAMES #A
10 node 1 leads log=1 claim=4
# a line is to be claimed, which may be one that is said
orders claim@1
10 node 1 hands PRIVMSG #a :hi you
30 node 1 leads
orders send PRIVMSG #a :hi you\r\n send NAMES #a\r\n
2029 node 1 leads
orders beat@1
2030 node 1 leads
orders send NAMES #b\r\n
4030 node 1 leads done=9
orders beat@1

story what_waits_goes_in_no_later_session
# Node 1 leads, and has a session.
0 node 1 leads
1 server connected
2 server sends :s 001 me :hi\r\n
forget
2 node 1 hands NAMES #a
10 server closed
1010 tick
1011 server connected
1012 server sends :s 001 me :hi\r\n
forget
1013 node 1 leads done=9
orders

story a_line_of_another_node_goes_nowhere
# Node 1 leads, and has a session.
0 node 1 leads
1 server connected
2 server sends :s 001 me :hi\r\n
forget
2 node 2 hands PRIVMSG #x :of no session
10 node 1 leads
orders
