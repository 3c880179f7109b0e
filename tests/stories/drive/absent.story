# Channels that are not joined, by stories.

story a_channel_that_the_server_refuses_is_told_with_its_reason_also_to_who_attaches_later
0 node 1 leads
5 server connected
6 server sends :s 001 me :hi\r\n
7 node 1 rejoins #k
8 node 1 rejoins #two
9 tick
forget
10 server sends :s 475 me #k :Cannot join channel (+k)\r\n:me!u@h JOIN #two\r\n
orders news@1 [a channel is not joined] heard@1 heard@1
20 node 1 takes client 1
21 client 1 sends PASS pw\r\nNICK n\r\nUSER u 0 * :r\r\n
orders write@1 :bouncer.local 001 me :Welcome to the bouncer\r\n news@1 [client 1 attached] ask@1
  write@1 :bouncer.local 422 me :No message of the day\r\n:*status!bouncer@local NOTICE me :#k is not joined: Cannot join channel (+k)\r\n
# it says no more of the same channel
30 server sends :s 404 me #k :Cannot send to channel\r\n
orders heard@1
40 server sends :me!u@h JOIN #K\r\n
50 node 1 takes client 2
forget
51 client 2 sends PASS pw\r\nNICK n\r\nUSER u 0 * :r\r\n
orders write@2 :bouncer.local 001 me :Welcome to the bouncer\r\n news@1 [client 2 attached] ask@1
  write@2 :bouncer.local 422 me :No message of the day\r\n

story a_kick_while_nobody_is_attached_is_told_to_who_attaches_later
0 node 1 leads
5 server connected
6 server sends :s 001 me :hi\r\n
forget
10 server sends :carol!c@h KICK #two me :enough\r\n:carol!c@h KICK #two you :enough\r\n
orders news@1 [a channel is not joined] heard@1 heard@1
20 node 1 takes client 1
21 client 1 sends PASS pw\r\nNICK n\r\nUSER u 0 * :r\r\n
orders write@1 :bouncer.local 001 me :Welcome to the bouncer\r\n news@1 [client 1 attached] ask@1
  write@1 :bouncer.local 422 me :No message of the day\r\n:*status!bouncer@local NOTICE me :#two is not joined: kicked by carol (enough)\r\n
# a new session asks again
30 server closed
1100 tick
1101 server connected
1102 server sends :s 001 me :hi\r\n
1103 node 1 takes client 2
forget
1104 client 2 sends PASS pw\r\nNICK n\r\nUSER u 0 * :r\r\n
orders write@2 :bouncer.local 001 me :Welcome to the bouncer\r\n news@1 [client 2 attached] ask@1
  write@2 :bouncer.local 422 me :No message of the day\r\n
