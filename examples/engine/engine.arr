# ticks of the counter, and marks of the crank
2000 Milli
2100 Crank
4000 Milli
5100 Crank
6000 Milli
8000 Milli
8100 Crank
10000 Milli
11100 Crank
12000 Milli
14000 Milli
14100 Crank
16000 Milli
17100 Crank
18000 Milli
20000 Milli
20100 Crank
