# The keys by which channels are joined again, by stories.

story each_channel_of_a_join_goes_by_the_key_at_its_place
# Node 1 leads, and has a session. There are fewer keys than channels (RFC 2812, 3.2.1).
0 node 1 leads
1 server connected
2 server sends :s 001 me :hi\r\n
forget
3 node 1 hands JOIN #a,#b,#c,#d ka,kb,kc
4 node 1 leads
orders send JOIN #a,#b,#c,#d ka,kb,kc\r\n
# the key of #b was wrong
5 server sends :me!u@h JOIN #a\r\n:s 475 me #b :Cannot join channel (+k)\r\n:me!u@h JOIN #c\r\n:me!u@h JOIN #d\r\n
6 server closed
1010 tick
1011 server connected
1012 server sends :s 001 me :hi\r\n
forget
3000 node 1 rejoins #a
orders send JOIN #a ka\r\n
5000 node 1 rejoins #b
orders send JOIN #b\r\n
7000 node 1 rejoins #c
orders send JOIN #c kc\r\n
9000 node 1 rejoins #d
orders send JOIN #d\r\n

story the_last_key_of_a_channel_counts_and_keys_past_the_channels_do_not
# Node 1 leads, and has a session.
0 node 1 leads
1 server connected
2 server sends :s 001 me :hi\r\n
forget
3 node 1 hands JOIN #a,#A,here,#b k1,k2,k3,k4,k5
4 node 1 leads
5 server sends :me!u@h JOIN #A\r\n:me!u@h JOIN #b\r\n
6 server closed
1010 tick
1011 server connected
1012 server sends :s 001 me :hi\r\n
forget
3000 node 1 rejoins #a
orders send JOIN #a k2\r\n
5000 node 1 rejoins #b
orders send JOIN #b k4\r\n
