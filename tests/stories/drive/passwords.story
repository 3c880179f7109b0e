# What a driver does about wrong passwords, by stories.

story a_wrong_password_is_answered_two_seconds_later_and_nothing_more_is_taken_of_its_client
0 node 2 follows
100 node 2 takes client 1
100 node 2 takes client 2
forget
200 client 1 sends PASS no\r\nNICK n\r\nUSER u 0 * :r\r\nPING x\r\n
orders news@2 [wrong password: client 1 is refused]
client 1 is leaving
client 1 is not attached
300 client 1 sends PASS pw\r\nNICK n\r\nUSER u 0 * :r\r\n
orders
# the right one of a client that waits lets it in at once
400 client 2 sends PASS pw\r\nNICK n\r\nUSER u 0 * :r\r\n
orders write@2 :bouncer.local 001 me :Welcome to the bouncer\r\n news@2 [client 2 attached] ask@2
  write@2 :bouncer.local 422 me :No message of the day\r\n:*status!bouncer@local NOTICE me :There is no server; it is tried as soon as a node leads.\r\n
client 2 is attached
1000 node 2 follows
2199 tick
forget
client 1 is leaving
2200 tick
orders write@1 :bouncer.local 464 * :Password incorrect\r\n close@1
2300 client 1 leaves
orders

story a_client_that_quits_before_it_registers_has_no_wrong_password
0 node 2 follows
100 node 2 takes client 1
forget
200 client 1 sends NICK n\r\nCAP LS\r\nQUIT\r\n
orders write@1 :bouncer.local CAP * LS :\r\n close@1

story past_ten_wrong_passwords_one_a_second_is_answered_and_an_operator_is_told_how_many_came
0 node 2 follows
100 node 2 takes client 1
100 node 2 takes client 2
100 node 2 takes client 3
100 node 2 takes client 4
100 node 2 takes client 5
100 node 2 takes client 6
100 node 2 takes client 7
100 node 2 takes client 8
100 node 2 takes client 9
100 node 2 takes client 10
100 node 2 takes client 11
100 node 2 takes client 12
100 node 2 takes client 13
200 client 1 sends PASS no\r\nNICK n\r\nUSER u 0 * :r\r\n
200 client 2 sends PASS no\r\nNICK n\r\nUSER u 0 * :r\r\n
200 client 3 sends PASS no\r\nNICK n\r\nUSER u 0 * :r\r\n
200 client 4 sends PASS no\r\nNICK n\r\nUSER u 0 * :r\r\n
200 client 5 sends PASS no\r\nNICK n\r\nUSER u 0 * :r\r\n
200 client 6 sends PASS no\r\nNICK n\r\nUSER u 0 * :r\r\n
200 client 7 sends PASS no\r\nNICK n\r\nUSER u 0 * :r\r\n
200 client 8 sends PASS no\r\nNICK n\r\nUSER u 0 * :r\r\n
200 client 9 sends PASS no\r\nNICK n\r\nUSER u 0 * :r\r\n
forget
200 client 10 sends PASS no\r\nNICK n\r\nUSER u 0 * :r\r\n
orders news@2 [wrong password: client 10 is refused]
200 client 11 sends PASS no\r\nNICK n\r\nUSER u 0 * :r\r\n
200 client 12 sends PASS no\r\nNICK n\r\nUSER u 0 * :r\r\n
orders
# the right one is judged at once
300 client 13 sends PASS pw\r\nNICK n\r\nUSER u 0 * :r\r\n
client 13 is attached
2000 node 2 follows
2200 tick
forget
2500 node 2 follows
3000 node 2 follows
3199 tick
forget
client 12 is leaving
3200 tick
orders write@12 :bouncer.local 464 * :Password incorrect\r\n close@12
60199 passwords
orders
60200 passwords
orders news@0 [wrong passwords: 2 more clients in the last minute]
60300 passwords
orders
