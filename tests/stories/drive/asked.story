# What a client is answered that asks something of the bouncer itself, and what it is told that the buffers close, by stories.

story a_client_that_says_help_is_told_the_words
0 node 1 leads
1 node 1 takes client 1
5 server connected
6 server sends :s 001 me :hi\r\n
7 client 1 sends PASS pw\r\nNICK n\r\nUSER u 0 * :r\r\n
forget
8 client 1 sends PRIVMSG *status :help\r\n
orders write@1 :*status!bouncer@local PRIVMSG me :Unknown command.\r\n:*status!bouncer@local NOTICE me :What you can say to *status, in letters of either case:\r\n:*status!bouncer@local NOTICE me :ATTACH #channel - show a channel again, and what you missed there\r\n:*status!bouncer@local NOTICE me :DETACH #channel - show nothing of a channel, and stay in it\r\n:*status!bouncer@local NOTICE me :PLAYBUFFER name - show what is kept of a channel or a person\r\n:*status!bouncer@local NOTICE me :CLEARBUFFER name - forget what is kept of one\r\n:*status!bouncer@local NOTICE me :CLEARALLCHANNELBUFFERS, CLEARALLQUERYBUFFERS, CLEARALLBUFFERS - forget what is kept of all\r\n:*status!bouncer@local NOTICE me :SETBUFFER name lines - keep this many lines of one, at most 500\r\n:*status!bouncer@local NOTICE me :DROP WAITING - forget what waits to go to the server\r\n:*status!bouncer@local NOTICE me :STATUS - the state of the bouncer; CLIENTS - who is attached; HELP - this list\r\n

story who_is_attached_is_told_to_who_asks_alone
0 node 1 leads
0 node 2 follows
1 node 1 takes client 1
1 node 2 takes client 2
1 node 2 takes client 3
7 client 1 sends PASS pw\r\nNICK n\r\nUSER u 0 * :r\r\n
7 client 2 sends PASS x@laptop:pw\r\nNICK n\r\nUSER u 0 * :r\r\n
forget
8 client 1 sends PRIVMSG *status :Clients\r\n
orders write@1 :*status!bouncer@local PRIVMSG me :Unknown command.\r\n:*status!bouncer@local NOTICE me :Client 1 has no name, at node 1.\r\n:*status!bouncer@local NOTICE me :Client 2 is laptop, at node 2.\r\n

story a_client_that_asks_is_told_how_the_bouncer_stands
0 node 1 leads
0 node 2 follows
0 node 3 fails
1 node 1 takes client 1
7 client 1 sends PASS pw\r\nNICK n\r\nUSER u 0 * :r\r\n
forget
8 client 1 sends PRIVMSG *status :status\r\n
orders write@1 :*status!bouncer@local PRIVMSG me :Unknown command.\r\n:*status!bouncer@local NOTICE me :The nodes: 1 leads. 2 is up. 3 is down.\r\n:*status!bouncer@local NOTICE me :There is no server; it is tried now.\r\n:*status!bouncer@local NOTICE me :To go out: 0 lines, 0 questions who is in a channel.\r\n:*status!bouncer@local NOTICE me :The log: 0 of 1000000 entries.\r\n:*status!bouncer@local NOTICE me :Client 1 has no name, at node 1.\r\n
10 server connected
11 server sends :s 001 me :hi\r\n
12 node 1 leads log=12 claim=1
forget
3660011 client 1 sends PRIVMSG *status :STATUS\r\n
orders write@1 :*status!bouncer@local PRIVMSG me :Unknown command.\r\n:*status!bouncer@local NOTICE me :The nodes: 1 leads. 2 is up. 3 is down.\r\n:*status!bouncer@local NOTICE me :The server: connected for 1 h 1 min.\r\n:*status!bouncer@local NOTICE me :To go out: 0 lines, 0 questions who is in a channel. More lines wait in the log.\r\n:*status!bouncer@local NOTICE me :The log: 12 of 1000000 entries.\r\n:*status!bouncer@local NOTICE me :Client 1 has no name, at node 1.\r\n

story a_word_without_its_argument_is_answered_by_the_words
0 node 2 follows
0 node 2 takes client 1
1 client 1 sends PASS pw\r\nNICK n\r\nUSER u 0 * :r\r\n
forget
2 client 1 sends PRIVMSG *status :Detach #c\r\n
orders ask@2
3 client 1 sends NOTICE *status :help\r\n
orders

story a_client_with_a_65th_name_is_told_why_it_is_closed
0 node 2 follows
0 node 2 takes client 1
1 client 1 sends PASS x@laptop:pw\r\nNICK n\r\nUSER u 0 * :r\r\n
forget
2 node 2 closes 1
orders news@2 [client 1 is closed: 64 names are in use already: attach without a name, or with one that is in use]
  write@1 ERROR :Closing link: 64 names are in use already: attach without a name, or with one that is in use\r\n
  close@1 news@2 [client 1 left] ask@2

story a_client_that_gives_way_is_told_so
0 node 2 follows
0 node 2 takes client 1
1 client 1 sends PASS pw\r\nNICK n\r\nUSER u 0 * :r\r\n
2 node 2 does 1 1
forget
3 node 2 closes 1
orders news@2 [client 1 is closed: only one client may attach at a time (multi_clients)]
  write@1 ERROR :Closing link: only one client may attach at a time (multi_clients)\r\n
  close@1 news@2 [client 1 left] ask@2
