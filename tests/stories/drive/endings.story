# What a driver's clients hear where the server ends the session, by a story.

story a_client_hears_of_the_end_of_a_session_by_a_notice
0 node 2 follows
1 node 2 takes client 1
2 client 1 sends PASS pw\r\nNICK n\r\nUSER u 0 * :r\r\n
forget
3 node 2 shows 1 ERROR :Closing Link: (too slow)
orders
  write@1 :*status!bouncer@local NOTICE me :The server ends the session: Closing Link: (too slow)\r\n
4 node 2 shows 1 :bob!b@h KILL ME :h!bob (spam)
orders
  write@1 :*status!bouncer@local NOTICE me :The server ends the session: killed by bob: h!bob (spam)\r\n
5 node 2 shows 1 KILL me
orders
  write@1 :*status!bouncer@local NOTICE me :The server ends the session: killed by the server\r\n
6 node 2 shows 1 :bob!b@h KILL you :h!bob (spam)
orders write@1 :bob!b@h KILL you :h!bob (spam)\r\n
