# four bytes
1000 Receive
2500 Receive
4000 Receive
6000 Receive
