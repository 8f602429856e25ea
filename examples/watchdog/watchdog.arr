# the bus falls silent after 3500, so the second period misses its sign
1000 Milli
1500 Bus
2000 Milli
3000 Milli
3500 Bus
4000 Milli
5000 Milli
6000 Milli
7000 Milli
8000 Milli
