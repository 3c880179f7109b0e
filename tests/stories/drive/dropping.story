# What waits to go to the server is dropped, by stories.

story what_waits_is_dropped_with_what_is_said_until_no_line_is_left_to_claim
# Node 1 leads, and has a session, in which two lines go at once; a client of it is attached.
0 node 1 leads
1 server connected
2 server sends :s 001 me :hi\r\n
3 node 1 takes client 1
4 client 1 sends PASS pw\r\nNICK n\r\nUSER u 0 * :r\r\n
forget
5 node 1 hands PRIVMSG #x :one
5 node 1 hands PRIVMSG #x :two
5 node 1 hands PRIVMSG #x :three
5 node 1 hands NAMES #x
6 node 1 leads log=9 claim=4
orders send PRIVMSG #x :one\r\n send PRIVMSG #x :two\r\n
7 client 1 sends PRIVMSG *status :Drop Waiting\r\n
orders write@1 :*status!bouncer@local PRIVMSG me :Unknown command.\r\n:*status!bouncer@local NOTICE me
  :What waits is dropped, with what is said until that is done.\r\n
# a line that is dropped waits for no pace
8 node 1 leads log=9 claim=4
orders claim@1
9 node 1 hands PRIVMSG #x :four
10 node 1 leads log=9
orders write@1 :*status!bouncer@local NOTICE me :Lines that were dropped: 2.\r\n
# what is said from then on goes, and so does the question, each at its time
11 node 1 hands PRIVMSG #x :five
2005 node 1 leads log=9
orders beat@1
2006 node 1 leads log=9
orders send PRIVMSG #x :five\r\n
4006 node 1 leads log=9
orders send NAMES #x\r\n

story who_drops_what_waits_is_told_that_nothing_does
0 node 1 leads
0 node 2 takes nobody
1 node 1 takes client 1
2 client 1 sends PASS pw\r\nNICK n\r\nUSER u 0 * :r\r\n
forget
3 client 1 sends PRIVMSG *status :DROP WAITING\r\n
orders write@1 :*status!bouncer@local PRIVMSG me :Unknown command.\r\n:*status!bouncer@local NOTICE me :Nothing waits.\r\n
4 node 1 leads done=9
orders

story where_no_node_leads_what_waits_is_dropped_once_one_does
0 node 1 follows
1 node 1 takes client 1
2 client 1 sends PASS pw\r\nNICK n\r\nUSER u 0 * :r\r\n
forget
3 client 1 sends PRIVMSG *status :drop waiting\r\n
orders write@1 :*status!bouncer@local PRIVMSG me :Unknown command.\r\n:*status!bouncer@local NOTICE me
  :What waits is dropped, with what is said until that is done.\r\n
10 node 1 leads log=3 claim=1
orders news@1 [leads in term 1] claim@1 connect
11 server connected
12 server sends :s 001 me :hi\r\n
forget
13 node 1 hands PRIVMSG #x :one
# a second one goes on where the first does
14 client 1 sends PRIVMSG *status :drop waiting\r\n
forget
15 node 1 leads log=3
orders write@1 :*status!bouncer@local NOTICE me :Lines that were dropped: 1.\r\n
