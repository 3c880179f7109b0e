# What a driver does about a server that says nothing, by stories.

story a_server_that_says_nothing_is_asked_for_a_word_once_and_left
0 node 1 leads
5 server connected
6 server sends :s 001 me :hi\r\n
forget
75005 tick
orders beat@1
75006 tick
orders send PING :hukbarg\r\n
75007 tick
150005 tick
orders
150006 tick
orders disconnect news@1 [upstream closed: the server is silent] closed@1

story any_word_of_a_server_is_enough_and_its_answer_is_told_to_nobody
0 node 1 leads
5 server connected
6 server sends :s 001 me :hi\r\n
75006 tick
forget
75100 server sends :s PONG s :hukbarg\r\n
orders
150099 tick
orders
150100 tick
orders send PING :hukbarg\r\n
150200 server sends :a!b@c PRIVMSG me :hi\r\n
orders heard@1
225199 tick
orders
225200 tick
orders send PING :hukbarg\r\n

story a_server_that_gave_no_session_is_asked_nothing
0 node 1 leads
5 server connected
forget
75005 tick
orders beat@1
150004 tick
orders
150005 tick
orders disconnect news@1 [upstream not opened: the server is silent] closed@1
